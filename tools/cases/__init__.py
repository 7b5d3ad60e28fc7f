"""Random inputs for each command, drawn by the model's rules and then often damaged."""
