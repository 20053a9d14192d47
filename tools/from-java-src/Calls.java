import com.sun.source.tree.ExpressionTree;
import com.sun.source.tree.IdentifierTree;
import com.sun.source.tree.MemberSelectTree;
import com.sun.source.tree.MethodInvocationTree;
import com.sun.source.tree.Tree;
import java.util.ArrayList;
import java.util.HashMap;
import java.util.LinkedHashMap;
import java.util.List;
import java.util.Map;
import java.util.function.Supplier;
import java.util.stream.Collectors;
import javax.lang.model.element.Element;
import javax.lang.model.element.ExecutableElement;
import javax.lang.model.element.Modifier;
import javax.lang.model.element.TypeElement;
import javax.lang.model.element.VariableElement;
import javax.lang.model.type.ArrayType;
import javax.lang.model.type.DeclaredType;
import javax.lang.model.type.ExecutableType;
import javax.lang.model.type.TypeKind;
import javax.lang.model.type.TypeMirror;
import javax.lang.model.type.TypeVariable;
import javax.lang.model.type.WildcardType;

/** Calls of methods. */
final class Calls {
    private final Body body;

    Calls(Body body) {
        this.body = body;
    }

    Ex invocation(MethodInvocationTree tree, Ty wanted) {
        return call(tree, false);
    }

    void statement(MethodInvocationTree tree) {
        call(tree, true);
    }

    private Ex call(MethodInvocationTree tree, boolean alone) {
        ExecutableElement method = (ExecutableElement) body.elementOf(tree);
        ExpressionTree select = tree.getMethodSelect();
        TypeElement holder = (TypeElement) method.getEnclosingElement();
        if (holder.toString().equals("java.io.PrintStream")) {
            return new Printing(body).print(tree, method, (MemberSelectTree) select);
        }
        if (holder.toString().equals("java.lang.String") && new Formats(body).isText(method)) {
            return new Formats(body).call(tree, method);
        }
        if (method.toString().equals("printStackTrace()")) {
            body.program.leftOut(body.placeOf(tree), "printStackTrace: there is one output, and this is not printed");
        }
        Ex written = new Intrinsics(body).call(tree, method);
        if (written != null) {
            return written;
        }
        Ex ofClass = Classes.name(body, tree);
        if (ofClass != null) {
            return ofClass;
        }
        if (method.getModifiers().contains(Modifier.STATIC)) {
            return ofClass(tree, method, holder, alone);
        }
        if (select instanceof MemberSelectTree member && isSuper(member.getExpression())) {
            return ofSuper(tree, method, alone);
        }
        Ex[] receiver = new Ex[1];
        List<Supplier<Ex>> parts = new ArrayList<>();
        parts.add(() -> receiver[0] = receiver(select, holder, tree));
        Ex first = body.operands(List.of(parts.get(0))).get(0);
        if (first == null) {
            return Ex.constant("null", Ty.NULL);
        }
        return on(first, method, margs(method, body.world.sources.typeOf(select), tree.getArguments()), tree.getArguments(), tree, alone);
    }

    static boolean isSuper(ExpressionTree tree) {
        return tree instanceof IdentifierTree id && id.getName().contentEquals("super")
            || tree instanceof MemberSelectTree select && select.getIdentifier().contentEquals("super");
    }

    private Ex receiver(ExpressionTree select, TypeElement holder, Tree tree) {
        if (select instanceof MemberSelectTree member) {
            return body.ex(member.getExpression());
        }
        Ex around = body.around(holder);
        if (around == null && holder.toString().equals("java.lang.Object")) {
            return body.self;
        }
        return around != null ? around : body.obstacleEx(tree, "call", "the object of this method is not at hand here");
    }

    // ---- calls by kind

    /** A call on an object whose value is known, with arguments of the sources. */
    Ex on(Ex receiver, ExecutableElement method, List<Ty> found, List<? extends ExpressionTree> arguments, Tree tree,
        boolean alone) {
        List<Ty> margs = Wilds.with(body, method, environment(receiver, method, found), found, arguments);
        Map<Element, Ty> env = environment(receiver, method, margs);
        List<Supplier<Ex>> parts = new ArrayList<>();
        parts.add(() -> receiver);
        if (receiver.type.is(Ty.Kind.STRING) && method.getSimpleName().contentEquals("equals")) {
            parts.add(() -> body.ex(arguments.get(0)));
        } else if (method.toString().equals("append(java.lang.Object)")) {
            parts.add(() -> body.conversions.string(body.ex(arguments.get(0)), tree));
        } else {
            parts.addAll(arguments(method, env, arguments, tree));
        }
        List<Ex> values = body.operands(parts);
        ExecutableElement called = method.toString().equals("append(java.lang.Object)") ? ofStrings(method) : method;
        return invoke(values.get(0), called, margs, values.subList(1, values.size()), tree, alone);
    }

    /** The append of a string in place of that of an object. */
    private static ExecutableElement ofStrings(ExecutableElement method) {
        return (ExecutableElement) method.getEnclosingElement().getEnclosedElements().stream()
            .filter(one -> one.toString().equals("append(java.lang.String)")).findFirst().orElseThrow();
    }

    /** The types for the variables of the class that declares a method, as the receiver has them,
        and for the method's own. */
    Map<Element, Ty> environment(Ex receiver, ExecutableElement method, List<Ty> margs) {
        Map<Element, Ty> env = new HashMap<>();
        Element holder = method.getEnclosingElement();
        if (receiver != null && receiver.type.is(Ty.Kind.CLASS) && receiver.type.copy.as(holder) != null) {
            env.putAll(receiver.type.copy.as(holder).env);
        } else if (receiver != null && receiver.type.is(Ty.Kind.STRING)) {
            ((TypeElement) holder).getTypeParameters().forEach(one -> env.put(one, Ty.STRING));
        }
        Wilds.put(env, method, margs);
        return env;
    }

    /** A call on an object with values that were evaluated. */
    Ex invoke(Ex receiver, ExecutableElement method, List<Ty> margs, List<Ex> values, Tree tree, boolean alone) {
        String name = method.getSimpleName().toString();
        TypeElement holder = (TypeElement) method.getEnclosingElement();
        if (receiver.type.is(Ty.Kind.STRING)) {
            return finish(new Strings(body).call(receiver, method, values, tree), null, null, alone, method);
        }
        if (receiver.type.is(Ty.Kind.ARRAY)) {
            return name.equals("clone") ? body.creations.cloned(receiver)
                : body.obstacleEx(tree, "call on an array", name + " of an array is not brought in");
        }
        if (holder.toString().equals("java.lang.Object")) {
            return ofObject(receiver, method, values, tree, alone);
        }
        if (!receiver.type.is(Ty.Kind.CLASS) || receiver.type.copy.as(holder) == null) {
            return body.obstacleEx(tree, "generics", "what " + receiver.type
                + " has is not known here; give the variable a type argument");
        }
        Copy at = receiver.type.copy.as(holder);
        if (!body.program.known(at, tree, body)) {
            return body.obstacleEx(tree, "library", holder + " is not in the library");
        }
        World.Found own = margs.isEmpty() && at.isInterface() && !receiver.type.copy.isInterface()
            ? body.world.find(receiver.type.copy, method) : null;
        if (own != null && !own.copy().isInterface()) {
            at = own.copy();
            method = own.method();
        }
        Program.Slot slot = body.program.slot(at, method, margs);
        body.program.need(at, method, margs);
        if (body.world.methodNames.isOnlyDefault(method)) {
            List<Ex> all = new ArrayList<>(List.of(receiver));
            all.addAll(values);
            return finish(Ex.active(at.staticToken() + "." + slot.name() + joined(all), Ex.POST, slot.result()),
                slot.own(), tree, alone, method);
        }
        String front = receiver.text.equals("this") ? "" : receiver.at(Ex.POST) + ".";
        return finish(Ex.active(front + slot.name() + joined(values), Ex.POST, slot.result()), slot.own(), tree,
            alone, method);
    }

    static String joined(List<Ex> values) {
        return values.stream().map(value -> value.text).collect(Collectors.joining(", ", "(", ")"));
    }

    /** What comes of a call: a statement, or its value in the type that the sources see. */
    private Ex finish(Ex call, Ty own, Tree tree, boolean alone, ExecutableElement method) {
        if (alone || call.type.is(Ty.Kind.VOID)) {
            if (call.level == Ex.POST && call.text.endsWith(")")) {
                body.emit(new St.Do(call.text));
            } else if (!call.pure) {
                body.spill(call);
            }
            body.exceptions.after(method);
            return call.as(Ty.VOID);
        }
        Ex value = body.exceptions.throwsOn(method) ? body.spill(call) : call;
        body.exceptions.after(method);
        return own == null || own.same(value.type) ? value : body.conversions.cast(value, own, tree);
    }

    private Ex ofObject(Ex receiver, ExecutableElement method, List<Ex> values, Tree tree, boolean alone) {
        String name = method.getSimpleName().toString();
        if (name.equals("equals") || name.equals("hashCode") || name.equals("toString")) {
            return finish(body.program.objects.call(body, name, receiver, values), null, tree, alone, method);
        }
        return body.obstacleEx(tree, name, "of Object's methods there are equals, hashCode and toString");
    }

    private Ex ofSuper(MethodInvocationTree tree, ExecutableElement method, boolean alone) {
        Copy above = body.owner.superCopy;
        if (above == null && method.getEnclosingElement().toString().equals("java.lang.Object")) {
            return finish(body.program.objects.plain(body, method,
                body.ex(tree.getArguments().isEmpty() ? null : tree.getArguments().get(0))),
                null, tree, alone, method);
        }
        Copy at = above == null || body.owner.element == null ? null : above.as(method.getEnclosingElement());
        if (at == null || tree.getMethodSelect().toString().contains(".super.")) {
            return body.obstacleEx(tree, "super call", "only the method of a class above is called so");
        }
        List<Ty> margs = margs(method, body.world.sources.typeOf(tree.getMethodSelect()), tree.getArguments());
        body.program.needInherited(above, method, margs);
        Map<Element, Ty> env = new HashMap<>(environment(Ex.constant("this", at.ty), method, margs));
        List<Ex> values = body.operands(arguments(method, env, tree.getArguments(), tree));
        Program.Slot slot = body.program.slot(at, method, margs);
        body.program.need(at, method, margs);
        return finish(Ex.active("super." + slot.name() + joined(values), Ex.POST, slot.result()), slot.own(), tree,
            alone, method);
    }

    private Ex ofClass(MethodInvocationTree tree, ExecutableElement method, TypeElement holder, boolean alone) {
        List<Ty> found = margs(method, body.world.sources.typeOf(tree.getMethodSelect()), tree.getArguments());
        List<Ty> margs = Wilds.with(body, method, environment(null, method, found), found, tree.getArguments());
        if (!body.program.known(body.world.staticCopy(holder), tree, body)) {
            return Ex.constant("null", Ty.NULL);
        }
        Map<Element, Ty> env = environment(null, method, margs);
        List<Ex> values = body.operands(arguments(method, env, tree.getArguments(), tree));
        return invokeStatic(method, margs, values, alone);
    }

    Ex invokeStatic(ExecutableElement method, List<Ty> margs, List<Ex> values, boolean alone) {
        Copy at = body.world.staticCopy((TypeElement) method.getEnclosingElement());
        Program.Slot slot = body.program.slot(at, method, margs);
        body.program.need(at, method, margs);
        return finish(Ex.active(at.staticToken() + "." + slot.name() + joined(values), Ex.POST, slot.result()),
            slot.own(), null, alone, method);
    }

    // ---- arguments

    List<Supplier<Ex>> arguments(ExecutableElement method, Map<Element, Ty> env,
        List<? extends ExpressionTree> given, Tree tree) {
        List<Ty> types = new ArrayList<>();
        for (VariableElement one : method.getParameters()) {
            types.add(body.world.parameter(one, env));
        }
        List<Supplier<Ex>> parts = new ArrayList<>();
        boolean packed = method.isVarArgs() && !isArrayItself(method, given);
        int plain = packed ? types.size() - 1 : types.size();
        for (int k = 0; k < plain && k < given.size(); k++) {
            ExpressionTree argument = given.get(k);
            Ty type = types.get(k);
            boolean isLoad = body.world.isLoad(method.getParameters().get(k)) && Numbers.isLoad(argument);
            parts.add(() -> isLoad ? Literals.of(0) : body.exTo(argument, type));
        }
        if (packed) {
            parts.add(() -> body.creations.filled(types.get(plain), given.subList(plain, given.size()), null));
        }
        return parts;
    }

    private boolean isArrayItself(ExecutableElement method, List<? extends ExpressionTree> given) {
        int last = method.getParameters().size() - 1;
        if (given.size() != last + 1) {
            return false;
        }
        TypeMirror type = body.world.sources.typeOf(given.get(last));
        if (type == null || type.getKind() == TypeKind.NULL) {
            return true;
        }
        TypeMirror asked = body.world.sources.types.erasure(method.getParameters().get(last).asType());
        return type.getKind() == TypeKind.ARRAY
            && body.world.sources.types.isAssignable(body.world.sources.types.erasure(type), asked);
    }

    // ---- type arguments of methods

    /** What the compiler found for the variables of a generic method, from its type at a call. */
    List<Ty> margs(ExecutableElement method, TypeMirror called, List<? extends ExpressionTree> arguments) {
        if (method.getTypeParameters().isEmpty() || !(called instanceof ExecutableType type)) {
            return List.of();
        }
        Map<Element, Ty> found = new LinkedHashMap<>();
        for (int k = 0; k < method.getParameters().size() && k < type.getParameterTypes().size(); k++) {
            match(method.getParameters().get(k).asType(), type.getParameterTypes().get(k), found);
        }
        match(method.getReturnType(), type.getReturnType(), found);
        for (int k = 0; k < method.getParameters().size() && k < arguments.size(); k++) {
            TypeMirror argument = body.world.sources.typeOf(arguments.get(k));
            if (argument != null) {
                match(method.getParameters().get(k).asType(), argument, found);
            }
        }
        List<Ty> all = new ArrayList<>();
        method.getTypeParameters().forEach(one -> all.add(found.getOrDefault(one,
            body.world.ty(one.asType(), Map.of()))));
        return all;
    }

    void match(TypeMirror declared, TypeMirror given, Map<Element, Ty> found) {
        if (declared.getKind() == TypeKind.TYPEVAR && given.getKind() != TypeKind.NONE
            && given.getKind() != TypeKind.VOID) {
            Element variable = ((TypeVariable) declared).asElement();
            boolean itself = given instanceof TypeVariable other && other.asElement().equals(variable)
                && !body.env.containsKey(variable);
            if (variable.getEnclosingElement() instanceof ExecutableElement && !found.containsKey(variable) && !itself
                && !given.getKind().isPrimitive()) {
                found.put(variable, body.ty(given));
            }
        } else if (declared.getKind() == TypeKind.ARRAY && given.getKind() == TypeKind.ARRAY) {
            match(((ArrayType) declared).getComponentType(), ((ArrayType) given).getComponentType(), found);
        } else if (declared.getKind() == TypeKind.DECLARED && given.getKind() == TypeKind.DECLARED) {
            List<? extends TypeMirror> one = ((DeclaredType) declared).getTypeArguments(),
                other = ((DeclaredType) given).getTypeArguments();
            for (int k = 0; k < one.size() && k < other.size(); k++) {
                match(one.get(k), other.get(k), found);
            }
        } else if (declared.getKind() == TypeKind.WILDCARD) {
            WildcardType one = (WildcardType) declared;
            TypeMirror bound = one.getExtendsBound() != null ? one.getExtendsBound() : one.getSuperBound();
            TypeMirror other = given instanceof WildcardType wild ? wild.getExtendsBound() != null
                ? wild.getExtendsBound() : wild.getSuperBound() : given;
            if (bound != null && other != null) {
                match(bound, other, found);
            }
        }
    }
}
