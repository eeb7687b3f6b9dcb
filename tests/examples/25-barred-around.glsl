#define id(x) x
#define foo id(foo) bar
foo
