/** Weather of a week: constants, two-dimensional arrays, byte and short, formats. */
public class Temperature {
    static final int DAYS = 7, HOURS = 4;
    static final String TITLE = "week " + DAYS * HOURS;
    static final char DEGREE = '*';

    static int toFahrenheit(int celsius) {
        return celsius * 9 / 5 + 32;
    }

    static int[][] measured(int seed) {
        int[][] all = new int[DAYS][HOURS];
        int x = seed;
        for (int[] day : all) {
            for (int h = 0; h < day.length; h++) {
                x = (x * 13 + 7) & 0x1F;
                day[h] = x - 8;
            }
        }
        return all;
    }

    public static void main(String[] args) {
        int[][] all = measured(5 + args.length);
        System.out.println(TITLE);
        int min = Integer.MAX_VALUE, max = Integer.MIN_VALUE, sum = 0;
        for (int d = 0; d < DAYS; d++) {
            String line = "";
            for (int t : all[d]) {
                min = t < min ? t : min;
                max = t > max ? t : max;
                sum += t;
                line += String.format("%4d", t) + DEGREE;
            }
            System.out.println("day " + (d + 1) + ":" + line);
        }
        System.out.println(min + " to " + max + ", mean " + sum / (DAYS * HOURS) + ", in F " + toFahrenheit(min)
            + " to " + toFahrenheit(max));
        byte b = (byte) 200;
        short s = (short) 70000;
        b += 100;
        s++;
        byte[] raw = {1, -1, 127};
        raw[2]++;
        System.out.println(b + " " + s + " " + raw[2] + " " + (raw[1] & 0xFF) + " " + (byte) (raw[0] << 7) + " "
            + (char) (raw[0] + 64));
        int hot = 0;
        week:
        for (int d = 0; d < DAYS; d++) {
            for (int h = 0; h < HOURS; h++) {
                if (all[d][h] < -7) {
                    System.out.println("frost on day " + d);
                    break week;
                }
                if (all[d][h] > 20) {
                    hot++;
                    continue week;
                }
            }
        }
        System.out.println(hot + " hot days");
        boolean odd = false;
        odd ^= hot % 2 == 1;
        odd |= hot > 100;
        odd &= true;
        System.out.printf("%-6b|%05d|%+d|%x|%c|%s%%%n", odd, 42, 7, 255, 'z', "end");
        System.out.println(0x1F + 0b101 + 017 + 1_000 + " " + '\u0041' + "\u00e9".length() + (char) 66 + (int) 'c');
    }
}
