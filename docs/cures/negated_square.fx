{ t in [-1,1] -> -t * t in ? }
-t * t -> -(t * t);
