"""The rows of each format. A module's `rows()` gives pairs: a line of the input, and the lines that it must print."""
