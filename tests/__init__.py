"""The tests of the built programs (checks/), what they share (lib/), models of the definitions (models/), and the tools of the gate (tools/)."""
