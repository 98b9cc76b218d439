tick

tock
