(define (problem many4) (:domain many) (:objects o0 o1 o2 o3) (:init (q o0) (r o0 o1) (r o1 o2) (r o2 o3)) (:goal (and (q o3) (d o0))))
