lock G;
global int n protected_by(H);
atomic f() : int { n = 1; }            // no return, which is judged before names
