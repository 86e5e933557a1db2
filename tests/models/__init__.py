"""Plain slow programs that compute what the definitions say."""
