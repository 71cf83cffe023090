# What is known of a size, and what is asked of one.
{ |x| in [0,3] /\ y in [-5,2] -> x * y in ? /\ |x - y| in ? }
