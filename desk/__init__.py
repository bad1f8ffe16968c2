"""What the command board does; each module says what it is for. No current is calculated here: the proved program does that."""
