import com.sun.source.tree.CompilationUnitTree;
import com.sun.source.tree.Tree;
import java.util.ArrayList;
import java.util.HashSet;
import java.util.LinkedHashMap;
import java.util.List;
import java.util.Map;
import java.util.Set;
import javax.lang.model.element.Element;
import javax.lang.model.element.ElementKind;
import javax.lang.model.element.Modifier;
import javax.lang.model.element.TypeElement;

/** A class or interface of the text: one of the sources with a type for each of its variables, or that of a lambda. */
final class Copy {
    final int number;
    final TypeElement element; // null for a lambda
    final Tree tree;
    final CompilationUnitTree unit;
    final Map<Element, Ty> env;
    final boolean isLibrary;
    final Ty ty = Ty.of(this);
    private Set<Copy> above; // this one and all above it
    String name;
    Copy outer; // the class of the object around its objects, where they have one
    Copy superCopy;
    List<Copy> interfaces = new ArrayList<>();
    boolean created;
    boolean live; // there are objects of it or of a class below
    boolean used; // stands somewhere as a type
    boolean holdsOuter;
    final Map<Element, Ty> captured = new LinkedHashMap<>(); // locals of the method around it
    final List<Field> fields = new ArrayList<>();
    final List<Method> methods = new ArrayList<>();
    final List<Field> staticFields = new ArrayList<>();
    final List<Method> staticMethods = new ArrayList<>();

    record Field(String name, String type, Place at, String was) {
    }

    static final class Method {
        String name;
        String was;
        boolean isPublic;
        boolean isStatic;
        String result;
        List<String> params = new ArrayList<>();
        List<St> body; // null where it is abstract
        Map<Element, String> locals = Map.of(); // what variables of the sources are called in it
        Place at;
    }

    Copy(int number, TypeElement element, Tree tree, CompilationUnitTree unit, Map<Element, Ty> env,
        boolean isLibrary) {
        this.number = number;
        this.element = element;
        this.tree = tree;
        this.unit = unit;
        this.env = env;
        this.isLibrary = isLibrary;
    }

    String token() {
        return "\u0001" + number + "\u0002";
    }

    /** Where its static members stand. */
    String staticToken() {
        return "\u0003" + number + "\u0002";
    }

    boolean isInterface() {
        return element != null && element.getKind().isInterface();
    }

    boolean isAbstract() {
        return element != null && element.getModifiers().contains(Modifier.ABSTRACT) || isEnumWithBodies();
    }

    private boolean isEnumWithBodies() {
        return element != null && element.getKind() == ElementKind.ENUM && element.getEnclosedElements().stream()
            .anyMatch(member -> member.getKind() == ElementKind.METHOD
                && member.getModifiers().contains(Modifier.ABSTRACT));
    }

    /** The class or interface at or above this one that is a copy of an element, or null. */
    Copy as(Element above) {
        if (element != null && element.equals(above)) {
            return this;
        }
        Copy found = superCopy == null ? null : superCopy.as(above);
        for (Copy one : interfaces) {
            found = found != null ? found : one.as(above);
        }
        return found;
    }

    boolean isBelow(Copy other) {
        if (above == null || above.size() == 1) {
            above = new HashSet<>(Set.of(this));
            if (superCopy != null) {
                superCopy.isBelow(superCopy);
                above.addAll(superCopy.above);
            }
            for (Copy one : interfaces) {
                one.isBelow(one);
                above.addAll(one.above);
            }
        }
        return above.contains(other);
    }

    /** The topmost class at or above it. */
    Copy root() {
        return superCopy == null ? this : superCopy.root();
    }

    @Override
    public String toString() {
        return name;
    }
}
