"""What the script vectors is made of: calls of kbd48, programs that make a state, and the step behind it."""
