(define (problem many6) (:domain many) (:objects o0 o1 o2 o3 o4 o5) (:init (q o0) (r o0 o1) (r o1 o2) (r o2 o3) (r o3 o4) (r o4 o5)) (:goal (and (q o5) (d o0))))
