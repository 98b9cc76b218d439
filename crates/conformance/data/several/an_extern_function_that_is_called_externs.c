put
get
