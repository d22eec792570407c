"""What tools/compare is made of: inputs, the programs that answer them, and what to do where two answers differ."""
