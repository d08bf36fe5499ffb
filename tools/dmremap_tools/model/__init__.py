"""What a pile of images holds: each layer finds itself in bytes, says what it is, and gives its bytes."""
