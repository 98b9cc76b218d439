/* Floating types are refused: this is here so that they are told, and not this header. */
