module Base = struct let unit_cost = 1 end
module M (X : A.S) = struct let g = X.unit_cost + X.unit_cost end
module N = M (Base)
