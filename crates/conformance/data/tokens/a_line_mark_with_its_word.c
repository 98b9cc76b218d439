#line 7
@