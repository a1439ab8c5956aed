"""Why the program answers a fault, or prints nothing: a sentence that names the file, the place and what to do."""
