#define f(x) x
#define g(x) f ( ( g ( x ) )
g(1) )
