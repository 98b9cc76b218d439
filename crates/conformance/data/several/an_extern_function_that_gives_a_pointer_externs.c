put
find
