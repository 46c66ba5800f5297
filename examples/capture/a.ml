let price = 3
let best = let cost = 2 in price + cost
