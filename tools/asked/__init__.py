"""What the program is asked and answers: words of the command line, tickets and images, sessions, and the files that they name."""
