; Of three cells in a row one is full. left moves what is in a cell to the next one.
(define (domain cells)
  (:predicates (x1) (x2) (x3))
  (:action left
    :effect (and (when (x3) (and (x2) (not (x3))))
                 (when (x2) (and (x1) (not (x2)))))))
