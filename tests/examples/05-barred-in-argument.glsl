#define id(x) x
#define foo bar foo
id(foo)
