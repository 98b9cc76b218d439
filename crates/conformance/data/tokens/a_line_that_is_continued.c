int a\
;