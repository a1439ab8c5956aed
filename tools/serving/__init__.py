"""What tools/printer is made of."""
