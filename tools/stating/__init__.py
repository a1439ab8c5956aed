"""What the repository states, as tools/stated keeps it."""
