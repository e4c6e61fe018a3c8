; Mates stand watches on a ship, and nobody stands two watches in a row.
(spec watches)
(index Mate)
(index Watch)
(index Change)
(given before (Change) Watch)
(given after (Change) Watch)
(choose mate (Watch) Mate)
(formula rest (forall (c Change) (/= (mate (before c)) (mate (after c)))))
