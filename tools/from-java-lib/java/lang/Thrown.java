package java.lang;

/** What was thrown and is not caught yet, and the end of a program that threw what nobody catches. */
public final class Thrown {
    public static Throwable pending;
    private static int identities;

    public static void stop(String what) {
        int[] none = new int[-1];
        none[0] = what.length();
    }

    public static int nextIdentity() {
        identities = identities + 1;
        return identities;
    }
}
