package java.util;

/** A map in the order of an enum's constants; the class that is given says nothing more. */
public class EnumMap<K extends Enum<K>, V> extends TreeMap<K, V> {
    public EnumMap(Object kind) {
    }
}
