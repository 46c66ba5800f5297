module Base = struct let f = 1 end
module M (X : A.S) = struct let g = X.f + X.f end
module N = M (Base)
