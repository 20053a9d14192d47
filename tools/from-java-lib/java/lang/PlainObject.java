package java.lang;

/** An object of which nothing is asked but whether it is another. */
public final class PlainObject {
}
