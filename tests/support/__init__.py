"""What the tests of all subjects share: where things lie, commands, what is installed, and their case."""
