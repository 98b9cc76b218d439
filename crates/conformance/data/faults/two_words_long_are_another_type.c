extern long far;
extern long int long far;
