"""The tools of the gate and of the documents."""
