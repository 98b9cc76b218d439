int a;
 _Thread_local b;