

w
