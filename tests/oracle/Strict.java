import java.io.PrintStream;
import java.util.Random;

/** Arguments, special ones and random ones, with StrictMath's results (fdlibm 5.3). */
class Strict {
    static final Random random = new Random(1998);
    static final double[] special = {
        0, Double.MIN_VALUE, 1e-320, Double.MIN_NORMAL, 1e-300, 0x1p-28, 0x1p-27, 0x1p-26, 0x1p-7, 0.3,
        0.78125, Math.PI / 4, Math.nextUp(Math.PI / 4), Math.nextDown(Math.PI / 4), 1, Math.PI / 2,
        3 * Math.PI / 4, Math.nextUp(3 * Math.PI / 4), Math.PI, 3 * Math.PI / 2, 2 * Math.PI, 7, 1023.5, 1024,
        0x1p19, 823549.6, 823549.7, 0x1p20, 0x1p30, 0x1p54, 0x1p60, 0x1p61, 1e154, 1.5e154, 1e300,
        Double.MAX_VALUE, Double.POSITIVE_INFINITY, Double.NaN };

    /** In turn: small angles, a controller's angles, multiples of pi/2, any bits, special ones. */
    static double argument(int i) {
        switch (i % 5) {
            case 0: return (random.nextDouble() - 0.5) * 4;
            case 1: return (random.nextDouble() - 0.5) * 2048;
            case 2: {
                double x = (random.nextInt(1400000) - 700000) * (Math.PI / 2);
                return Double.longBitsToDouble(Double.doubleToRawLongBits(x) + random.nextInt(5) - 2);
            }
            case 3: return Double.longBitsToDouble(random.nextLong());
            default: {
                double x = special[i / 5 % special.length];
                return random.nextBoolean() ? x : -x;
            }
        }
    }

    /** A second argument of any size, or near the first. */
    static double beside(double x, int i) {
        if (random.nextBoolean()) return argument(random.nextInt(1 << 20));
        double y = x * (random.nextDouble() * 4) * Math.scalb(1.0, random.nextInt(130) - 65);
        return random.nextBoolean() ? y : x * random.nextDouble();
    }

    static void line(StringBuilder out, String name, double a, double b, double result) {
        out.append(name).append(' ').append(Long.toHexString(Double.doubleToRawLongBits(a))).append(' ')
            .append(Long.toHexString(Double.doubleToRawLongBits(b))).append(' ')
            .append(Long.toHexString(Double.doubleToRawLongBits(result))).append('\n');
    }

    public static void main(String[] args) {
        int count = args.length > 0 ? Integer.parseInt(args[0]) : 200000;
        PrintStream to = new PrintStream(new java.io.BufferedOutputStream(System.out, 1 << 16), false);
        for (int i = 0; i < count; i++) {
            StringBuilder out = new StringBuilder();
            double x = argument(i), y = beside(x, i);
            line(out, "sin", x, 0, StrictMath.sin(x));
            line(out, "cos", x, 0, StrictMath.cos(x));
            line(out, "sqrt", Math.abs(x), 0, StrictMath.sqrt(Math.abs(x)));
            line(out, "hypot", x, y, StrictMath.hypot(x, y));
            to.print(out);
        }
        to.flush();
    }
}
