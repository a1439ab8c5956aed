"""How the crates are proved side by side: what they stand on, the rooms in which they are proved, and their order."""
