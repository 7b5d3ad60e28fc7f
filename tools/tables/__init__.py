"""The tables of the tests, each with the rows that stand there and those that the model makes."""
