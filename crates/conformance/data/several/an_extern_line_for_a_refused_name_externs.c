setjmp
memset
