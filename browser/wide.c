// Arithmetic on whole numbers of 128 bits, which LLVM calls by these names where the target has no instructions for it. Each works on halves of 64 bits.
typedef unsigned long half;
typedef __int128 wide;
typedef unsigned __int128 natural;
typedef union {
  wide all;
  struct { half low, high; };
} halves;

// The product, modulo 2 ^ 128: the whole product of the low halves, by their own halves of 32 bits, and the two mixed products, of which only the low
// half counts.
wide __multi3(wide left, wide right) {
  halves l = {left}, r = {right}, product;
  const half mask = 0xffffffff;
  half low = (l.low & mask) * (r.low & mask), first = (l.low & mask) * (r.low >> 32), second = (l.low >> 32) * (r.low & mask);
  half middle = (low >> 32) + (first & mask) + (second & mask);
  product.low = (low & mask) | (middle << 32);
  product.high = (l.low >> 32) * (r.low >> 32) + (first >> 32) + (second >> 32) + (middle >> 32) + l.high * r.low + l.low * r.high;
  return product.all;
}

// Shifts by 0 to 127.
wide __ashlti3(wide value, int by) {
  halves v = {value}, shifted;
  if (by == 0) return value;
  if (by >= 64) {
    shifted.high = v.low << (by - 64);
    shifted.low = 0;
  } else {
    shifted.high = (v.high << by) | (v.low >> (64 - by));
    shifted.low = v.low << by;
  }
  return shifted.all;
}

wide __lshrti3(wide value, int by) {
  halves v = {value}, shifted;
  if (by == 0) return value;
  if (by >= 64) {
    shifted.low = v.high >> (by - 64);
    shifted.high = 0;
  } else {
    shifted.low = (v.low >> by) | (v.high << (64 - by));
    shifted.high = v.high >> by;
  }
  return shifted.all;
}

// The quotient of numbers without a sign, bit by bit from the highest on. The divisor is never 0: that is proved of each division.
natural __udivti3(natural dividend, natural divisor) {
  natural quotient = 0, rest = 0;
  for (int bit = 127; bit >= 0; bit--) {
    half is_beyond = (half)(rest >> 127);
    rest = (rest << 1) | ((dividend >> bit) & 1);
    if (is_beyond || rest >= divisor) {
      rest -= divisor;
      quotient |= (natural)1 << bit;
    }
  }
  return quotient;
}

// The quotient of numbers with a sign, cut off towards 0: that of their sizes, below 0 where one of the two is.
wide __divti3(wide dividend, wide divisor) {
  natural quotient = __udivti3(dividend < 0 ? -(natural)dividend : (natural)dividend, divisor < 0 ? -(natural)divisor : (natural)divisor);
  return (dividend < 0) != (divisor < 0) ? (wide)-quotient : (wide)quotient;
}
