"""What comes to an end that no peer in order sends, in every state, and traces that are damaged; as tables."""
