"""What a stream shows: its commands by HP's names, what each of them does, and its pages as pictures."""
