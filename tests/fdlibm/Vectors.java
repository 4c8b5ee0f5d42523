// Writes the vectors of crates/fdlibm_vectors to standard output: 32 bytes each, four little-endian words: the function's number
// (0 sin, 1 cos, 2 sqrt, 3 hypot), the bits of x, those of y, and those of StrictMath's answer (a NaN's are 7ff8000000000000).
// Counts by kind go to standard error.
import java.io.*;
import java.math.*;
import java.nio.*;
import java.util.*;

class Vectors {
    static final BigDecimal HALF_PI = new BigDecimal("1.5707963267948966192313216916397514420985846996875529104874722961539");
    static final double INF = Double.POSITIVE_INFINITY;
    static final double NAN = Double.NaN;
    static final double[] SPECIAL = {0, 0x1p-1074, 0x3p-1074, 0x1p-1023, 0x0.fffffffffffffp-1022, 0x1p-1022, INF, NAN};
    static final long[] LOW = {0, 0xffffffffL};

    // High words that the code of sine and cosine compares with, but for the multiples of pi/2.
    static final int[] TRIG = {0x3e400000, 0x3fd33333, 0x3fe90000, 0x3fe921fb, 0x3ff921fb, 0x4002d97c};

    // Found by search: the answer turns on the last bit of S1 to S5, of C1 to C4, of pio2_1t, of pio2_2t, on 16 or 17, on 49 or 50.
    static final long[] LAST_BITS = {
        0x3fe072d2c126abcfL, 0x3fe6c7d7a6da329eL, 0x3fe37da75c54b025L, 0x3fe5e5c38bcd9d59L, 0x3fe3c18aab863edeL, 0x3fe8cc8ea0c4515eL, 0x3fe8f02b188e875eL,
        0x3fe73100c8b83a3eL, 0x3fe76156b494c568L, 0x3fe5b2e4dd276d6aL, 0x3fe90c05d41c7d86L, 0x3fe5da96a096414aL, 0x3fe8159507de04a8L, 0x3fe6b04e12355391L,
        0x3fe6e0117a211031L, 0x3fe8050a2c7bb042L, 0x3fe60ea40adb9415L, 0x40e75898933435daL, 0x40bb26da2831f48dL, 0x40ed1faac54523b5L, 0x40da7c44bd06f629L,
        0x40dc51399cc19081L, 0x4121fae001923febL, 0x41149955c777f3a1L, 0x41177c9d9a93661eL, 0x40d70e4f8bdfdd1cL, 0x40fda74c5dcf9160L, 0x41225a0b0ea27597L,
        0x411a817f1bf040a8L,
    };

    static final String[] NAMES = {"sin", "cos", "sqrt", "hypot"};
    static final Random random = new Random(53);
    static final Map<String, Integer> counts = new TreeMap<>();
    static final ByteArrayOutputStream out = new ByteArrayOutputStream();
    static String kind;

    static void put(int function, double x, double y) {
        double r = switch (function) {
            case 0 -> StrictMath.sin(x);
            case 1 -> StrictMath.cos(x);
            case 2 -> StrictMath.sqrt(x);
            default -> StrictMath.hypot(x, y);
        };
        ByteBuffer b = ByteBuffer.allocate(32).order(ByteOrder.LITTLE_ENDIAN).putLong(function);
        b.putLong(Double.doubleToRawLongBits(x)).putLong(Double.doubleToRawLongBits(y)).putLong(Double.doubleToLongBits(r));
        out.writeBytes(b.array());
        counts.merge(NAMES[function] + ", all", 1, Integer::sum);
        counts.merge(NAMES[function] + ", " + kind, 1, Integer::sum);
    }

    static void trig(double x) {
        put(0, x, 0);
        put(1, x, 0);
    }

    static void trigBoth(double x) {
        trig(x);
        trig(-x);
    }

    static void sqrt(double x) {
        put(2, x, 0);
    }

    static void sqrtNear(double x) {
        for (int u = -1; u <= 1; u++) sqrt(ulps(x, u));
    }

    // in both orders, with one sign that the answer drops
    static void hypot(double x, double y) {
        put(3, x, y);
        put(3, -y, x);
    }

    static double ulps(double x, long n) {
        return Double.longBitsToDouble(Double.doubleToRawLongBits(x) + n);
    }

    static double words(long high, long low) {
        return Double.longBitsToDouble(high << 32 | low);
    }

    static double multiple(int k, long offset) {
        return ulps(HALF_PI.multiply(BigDecimal.valueOf(k)).doubleValue(), offset);
    }

    // at random from 2^e below 2^(e+1)
    static double at(int e) {
        return Math.scalb(1 + random.nextDouble(), e);
    }

    static void multiplesOfHalfPi() {
        for (int k = 1; k <= 700; k++) {
            if (k <= 40 || Math.abs(k - 326) < 3 || Math.abs(k - 652) < 3) {
                kind = "k*pi/2 and 1, 2 ulp off, both signs";
                for (int u = -2; u <= 2; u++) trigBoth(multiple(k, u));
            } else {
                kind = "k*pi/2 or 1, 2 ulp off, a sign";
                int sign = k / 4 % 2 * 2 - 1;
                put(0, sign * multiple(k, k % 5 - 2), 0);
                put(1, -sign * multiple(k, (k + 2) % 5 - 2), 0);
            }
        }
        kind = "16, 17, 49, 50 bits cancelled";
        for (int k : new int[] {32, 33, 100, 226, 326, 452, 652, 700})
            for (int d : new int[] {15, 16, 17, 18, 48, 49, 50, 51}) trig(multiple(k, (d % 2 * 2 - 1) * (1L << 52 - d)));
        kind = "high words";
        for (int n = 2; n <= 32; n++)
            for (int d = -1; d <= 1; d++) trig((n % 2 * 2 - 1) * words((Double.doubleToLongBits(multiple(n, 0)) >> 32) + d, LOW[n + d & 1]));
    }

    static void sinesAndCosines() {
        kind = "high words";
        for (int h : TRIG)
            for (int d = -1; d <= 1; d++)
                for (long low : LOW) trigBoth(words(h + d, low));
        // the last are 2^19*pi/2, the end of what is compared, infinity and NaNs
        for (double x : new double[] {words(0x413921fa, LOW[1]), words(0x413921fb, 0), multiple(1 << 19, 0), words(0x7ff00000, 0), words(0x7ff00000, 1), words(0x7ff00001, 0)}) trigBoth(x);
        kind = "last bits of the constants";
        for (long b : LAST_BITS) trigBoth(Double.longBitsToDouble(b));
        kind = "1024, 2048, 4096 and neighbours";
        for (int n = 1024; n <= 4096; n *= 2)
            for (int u = -2; u <= 2; u++) trigBoth(ulps(n, u));
        kind = "zero, subnormals, infinity, NaN";
        for (double x : SPECIAL) trigBoth(x);
        kind = "random";
        for (int i = 0; i < 100; i++) {
            trig((random.nextDouble() * 2 - 1) * 1024);
            trig((random.nextDouble() * 2 - 1) * multiple(1 << 19, 0));
            trig((i % 2 * 2 - 1) * at(i / 2 - 32));
        }
    }

    static void roots() {
        kind = "zero, subnormals, infinity, NaN";
        for (double x : SPECIAL) {
            sqrt(x);
            sqrt(-x);
        }
        for (int e = 0; e < 52; e++) sqrt(ulps(0, (1L << e) + (random.nextLong() & (1L << e) - 1)));
        kind = "negative";
        for (double x : new double[] {1, 4, 0x1p-1000, Double.MAX_VALUE}) sqrt(-x);
        kind = "high words";
        for (int h : new int[] {0x00100000, 0x3ff00000, 0x40000000, 0x40100000, 0x7fe00000, 0x7ff00000})
            for (int d = -1; d <= 1; d++)
                for (long low : LOW) sqrt(words(h + d, low));
        kind = "squares and neighbours";
        for (int i = 1; i < 32; i++) sqrtNear(i * i);
        for (int i = 0; i < 40; i++) {
            double r = (1 << 25) + random.nextInt(1 << 25);
            sqrtNear(r * r);
            sqrtNear(Math.scalb(r * r, 2 * random.nextInt(1000) - 1074));
        }
        for (int e = -1074; e < 1024; e += 61) sqrtNear(Math.scalb(1.0, e));
        kind = "root between two doubles";
        for (int i = 0; i < 40; i++) {
            BigDecimal r = new BigDecimal(at(i % 2)), half = new BigDecimal(i % 2 == 0 ? 0x1p-53 : 0x1p-52);
            sqrtNear(r.add(half).pow(2).doubleValue());
        }
        // the closest: (p + 1/2)^2 - 1/4 + s is a multiple of 2^52, p found bit by bit
        for (int s = -40; s <= 40; s += 2)
            for (int first = 0; first < 2; first++) {
                long p = first;
                for (int i = 1; i < 52; i++) p += (p * p + p + s >> i & 1) << i;
                BigInteger b = BigInteger.valueOf(p + (1L << 52));
                sqrt(b.pow(2).add(b).add(BigInteger.valueOf(s)).shiftRight(52).longValue() * 0x1p-52);
            }
        kind = "random";
        for (int i = 0; i < 300; i++) sqrt(at(random.nextInt(2046) - 1022));
    }

    static void hypotenuses() {
        kind = "zero, subnormals, infinity, NaN";
        for (double x : SPECIAL)
            for (double y : SPECIAL) put(3, x, y);
        for (double x : new double[] {-INF, -0.0, 1, Double.MAX_VALUE})
            for (double y : new double[] {INF, NAN, 0}) hypot(x, y);
        kind = "high words";
        for (int h : new int[] {0x5f300000, 0x20b00000, 0x00100000, 0x7fe00000})
            for (int d = -1; d <= 1; d++)
                for (long low : LOW)
                    for (int other : new int[] {h + d, Math.min(h + 0x500000, 0x7fefffff), Math.max(h + d - 0x100000, 0)}) hypot(words(h + d, low), words(other, 0x12345678));
        kind = "60, 61 apart";
        for (int h : new int[] {0x3ff00000, 0x40112345, 0x5f300000, 0x5f300001, 0x20b00000, 0x24b00000, 0x7fe00000, 0x03e00000})
            for (int d = -1; d <= 1; d++)
                for (int apart : new int[] {0x3c00000, 0x3d00000}) hypot(words(h, random.nextInt(1 << 30)), words(h - apart + d, LOW[d & 1]));
        kind = "0 to 61 apart, large to small";
        for (int apart = 0; apart <= 61; apart++)
            for (int e : new int[] {1023, 501, 2, -499, -961}) put(3, at(e), -at(e - apart));
        kind = "equal, twice, triples";
        for (int e : new int[] {1022, 500, 1, -501, -1022, -1060}) {
            double a = at(e);
            hypot(a, a);
            for (int u = -1; u <= 1; u++) hypot(ulps(2 * a, u), a);
            hypot(a, 0);
            for (int i = 2; i < 6; i++) hypot(Math.scalb(i * i - 1, e - 5), Math.scalb(2 * i, e - 5));
        }
        kind = "subnormal";
        for (int e = -1074; e < -1022; e += 3) {
            hypot(at(e), at(e));
            hypot(at(e), at(-1022));
        }
        kind = "random";
        for (int i = 0; i < 300; i++) {
            int e = i % 3 == 0 ? random.nextInt(1980) - 1022 : 0;
            put(3, at(e), -at(e + random.nextInt(62)));
        }
    }

    public static void main(String[] args) throws IOException {
        multiplesOfHalfPi();
        sinesAndCosines();
        roots();
        hypotenuses();
        System.out.write(out.toByteArray());
        System.out.flush();
        counts.forEach((name, n) -> System.err.println(name + ": " + n));
    }
}
