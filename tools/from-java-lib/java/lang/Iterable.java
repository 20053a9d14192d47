package java.lang;

import java.util.Iterator;
import java.util.function.Consumer;

public interface Iterable<T> {
    Iterator<T> iterator();

    default void forEach(Consumer<T> action) {
        Iterator<T> at = iterator();
        while (at.hasNext()) {
            action.accept(at.next());
        }
    }
}
