{ a - b in [1,2] -> b - a in ? }
b - a -> -(a - b);
