import java.util.Set;
import javax.lang.model.element.Element;

/** Names of fields. */
final class Members {
    private static final Set<String> AVOIDED = Set.of("outer", "yield", "record", "var");

    private Members() {
    }

    static String field(Element field) {
        String name = field.getSimpleName().toString();
        return AVOIDED.contains(name) || name.startsWith("captured") ? name + "_" : name;
    }

    /** The field by which objects of a class know the object around them. */
    static String outer(Copy copy) {
        for (Copy up = copy.superCopy; up != null; up = up.superCopy) {
            if (up.holdsOuter) {
                return "outerOf" + copy.name;
            }
        }
        return "outer";
    }
}
