"""Reading instances and solutions, driving routes and calling the program: what the tools share."""
