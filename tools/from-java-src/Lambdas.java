import com.sun.source.tree.ExpressionTree;
import com.sun.source.tree.LambdaExpressionTree;
import com.sun.source.tree.MemberReferenceTree;
import com.sun.source.tree.StatementTree;
import com.sun.source.tree.BlockTree;
import com.sun.source.tree.Tree;
import com.sun.source.tree.VariableTree;
import java.util.ArrayList;
import java.util.HashMap;
import java.util.List;
import java.util.Map;
import javax.lang.model.element.Element;
import javax.lang.model.element.ElementKind;
import javax.lang.model.element.ExecutableElement;
import javax.lang.model.element.Modifier;
import javax.lang.model.element.TypeElement;
import javax.lang.model.element.VariableElement;

/** Lambdas and references to methods, each a class of its own with what it takes from around it in fields. */
final class Lambdas {
    private final Body body;

    Lambdas(Body body) {
        this.body = body;
    }

    private Copy function(Tree tree, Ty wanted) {
        Ty type = wanted != null && wanted.is(Ty.Kind.CLASS) && wanted.copy.isInterface() ? wanted : body.tyOf(tree);
        boolean fits = type.is(Ty.Kind.CLASS) && type.copy.isInterface() && body.program.known(type.copy, tree, body);
        if (!fits) {
            body.obstacle(tree, "lambda", "its interface is not known here");
        }
        return fits ? type.copy : null;
    }

    Ex lambda(LambdaExpressionTree tree, Ty wanted) {
        Copy function = function(tree, wanted);
        if (function == null) {
            return Ex.constant("null", Ty.NULL);
        }
        World.Found found = body.world.functional(function);
        int before = body.world.copies.size();
        Copy made = body.world.lambda(tree, body.owner, body.env, function);
        if (body.world.copies.size() > before) {
            body.program.prepare(made, tree, body.isStatic ? null : body.owner);
            body.program.later(() -> write(made, found, tree));
        }
        return create(made, null);
    }

    private Ex create(Copy made, Ex receiver) {
        body.program.create(made, body);
        if (made.captured.isEmpty() && !made.holdsOuter && receiver == null) {
            return Ex.active("new " + made.token() + "()", Ex.POST, made.ty);
        }
        Ex object = Ex.local(body.fresh("function"), made.ty);
        body.emit(new St.Let(made.token(), object.text, "new " + made.token() + "()"));
        if (receiver != null) {
            body.set(object.text + ".receiver", receiver);
        }
        body.creations.surround(made, object, made.holdsOuter ? body.self : null);
        return object;
    }

    private static Map<Element, Ty> environment(World.Found found) {
        return found.copy().env;
    }

    private Copy.Method begin(Body inner, World.Found found, Tree tree) {
        Program program = body.program;
        Program.Slot slot = program.slot(found.copy(), found.method(), List.of());
        program.need(found.copy(), found.method(), List.of());
        Copy.Method method = new Copy.Method();
        method.name = slot.name();
        method.was = found.method().getSimpleName().toString();
        method.isPublic = true;
        method.result = slot.result().text();
        method.at = inner.placeOf(tree);
        inner.result = slot.result();
        inner.place = method.at;
        return method;
    }

    private void write(Copy made, World.Found found, LambdaExpressionTree tree) {
        Body inner = new Body(body.program, made, made.env, false);
        Copy.Method method = begin(inner, found, tree);
        List<? extends VariableElement> asked = found.method().getParameters();
        for (int k = 0; k < asked.size(); k++) {
            VariableTree parameter = tree.getParameters().get(k);
            Ty type = body.world.ty(asked.get(k).asType(), environment(found));
            method.params.add(type.text() + " " + inner.declare(inner.elementOf(parameter), type));
        }
        boolean isVoid = found.method().getReturnType().getKind() == javax.lang.model.type.TypeKind.VOID;
        List<St> statements = inner.within(() -> inner.statements.hoisting(() -> {
            if (tree.getBody() instanceof BlockTree block) {
                block.getStatements().forEach(inner::statement);
            } else if (isVoid) {
                inner.statements.expression((ExpressionTree) tree.getBody());
            } else {
                inner.emit(new St.Return(inner.exTo((ExpressionTree) tree.getBody(), inner.result).text));
            }
        }));
        method.body = Finish.finish(statements, inner.result, inner);
        method.locals = inner.names();
        made.methods.add(method);
    }

    // ---- references

    Ex reference(MemberReferenceTree tree, Ty wanted) {
        Copy function = function(tree, wanted);
        if (function == null) {
            return Ex.constant("null", Ty.NULL);
        }
        Element qualifier = body.elementOf(tree.getQualifierExpression());
        boolean ofType = qualifier instanceof TypeElement || qualifier == null;
        Ex receiver = ofType || isOutput(tree) ? null : body.settle(body.ex(tree.getQualifierExpression()));
        World.Found found = body.world.functional(function);
        int before = body.world.copies.size();
        Copy made = body.world.lambda(tree, body.owner, body.env, function);
        if (body.world.copies.size() > before) {
            if (receiver != null) {
                made.fields.add(new Copy.Field("receiver", receiver.type.text(), body.placeOf(tree), null));
            }
            Ty kept = receiver == null ? null : receiver.type;
            body.program.later(() -> writeReference(made, found, tree, kept));
        }
        return create(made, receiver);
    }

    private boolean isOutput(MemberReferenceTree tree) {
        return tree.getQualifierExpression().toString().equals("System.out");
    }

    private void writeReference(Copy made, World.Found found, MemberReferenceTree tree, Ty kept) {
        Body inner = new Body(body.program, made, made.env, false);
        Copy.Method method = begin(inner, found, tree);
        List<Ex> values = new ArrayList<>();
        for (VariableElement one : found.method().getParameters()) {
            Ty type = body.world.ty(one.asType(), environment(found));
            String name = inner.declare(one, type);
            method.params.add(type.text() + " " + name);
            values.add(Ex.local(name, type));
        }
        List<St> statements = inner.within(() -> {
            Ex value = called(inner, tree, values, kept);
            if (inner.result.is(Ty.Kind.VOID)) {
                if (value != null && !value.pure && !value.type.is(Ty.Kind.VOID)) {
                    inner.emit(value.text.endsWith(")") ? new St.Do(value.text) : new St.Block(List.of()));
                }
            } else {
                inner.emit(new St.Return(inner.conversions.convert(value, inner.result, tree).text));
            }
        });
        method.body = Finish.finish(statements, inner.result, inner);
        method.locals = inner.names();
        made.methods.add(method);
    }

    private Ex called(Body inner, MemberReferenceTree tree, List<Ex> values, Ty kept) {
        Element element = inner.elementOf(tree);
        if (isOutput(tree)) {
            inner.emit(new St.Do("System.out." + tree.getName() + "("
                + inner.conversions.text(values.get(0), tree).text + ")"));
            return null;
        }
        if (tree.getMode() == MemberReferenceTree.ReferenceMode.NEW) {
            Ty type = inner.tyOf(tree.getQualifierExpression());
            if (type.is(Ty.Kind.ARRAY)) {
                return inner.creations.sized(type, inner.conversions.convert(values.get(0), Ty.INT, tree));
            }
            if (inner.result.is(Ty.Kind.CLASS) && type.is(Ty.Kind.CLASS)) {
                type = constructed(inner, type.copy, inner.result.copy);
            }
            ExecutableElement constructor = (ExecutableElement) element;
            return inner.creations.made(type.copy, constructor, null,
                fitted(inner, constructor, type.copy.env, values, tree), null);
        }
        ExecutableElement method = (ExecutableElement) element;
        if (method.getModifiers().contains(Modifier.STATIC)) {
            return ofClass(inner, method, values, tree);
        }
        Ex receiver = kept != null ? Ex.active("this.receiver", Ex.POST, kept) : values.get(0);
        List<Ex> rest = kept != null ? values : values.subList(1, values.size());
        Map<Element, Ty> env = inner.calls.environment(receiver, method, List.of());
        return inner.calls.invoke(receiver, method, List.of(), fitted(inner, method, env, rest, tree), tree, false);
    }

    /** The copy of a class that a constructor named without type arguments makes where a type is asked. */
    private static Ty constructed(Body inner, Copy named, Copy asked) {
        boolean fits = named.isBelow(asked) || named.env.size() != asked.env.size();
        if (fits) {
            return named.ty;
        }
        Map<Element, Ty> env = new java.util.LinkedHashMap<>();
        java.util.Iterator<Ty> given = asked.env.values().iterator();
        named.env.keySet().forEach(one -> env.put(one, given.next()));
        Copy made = inner.world.copy(named.element, env);
        return made.isBelow(asked) ? made.ty : named.ty;
    }

    private Ex ofClass(Body inner, ExecutableElement method, List<Ex> values, MemberReferenceTree tree) {
        if (method.getEnclosingElement().toString().equals("java.lang.String")
            && method.getSimpleName().contentEquals("valueOf")) {
            return inner.conversions.string(values.get(0), tree);
        }
        Map<Element, Ty> env = new HashMap<>();
        for (int k = 0; k < method.getParameters().size() && k < values.size(); k++) {
            javax.lang.model.type.TypeMirror type = method.getParameters().get(k).asType();
            if (type instanceof javax.lang.model.type.TypeVariable variable) {
                env.putIfAbsent(variable.asElement(), values.get(k).type);
            }
        }
        List<Ty> margs = new ArrayList<>();
        method.getTypeParameters().forEach(one -> margs.add(env.getOrDefault(one,
            inner.world.ty(one.asType(), Map.of()))));
        return inner.calls.invokeStatic(method, margs, fitted(inner, method, env, values, tree), false);
    }

    private static List<Ex> fitted(Body inner, ExecutableElement method, Map<Element, Ty> env, List<Ex> values,
        Tree tree) {
        List<Ex> all = new ArrayList<>();
        for (int k = 0; k < values.size() && k < method.getParameters().size(); k++) {
            all.add(inner.conversions.convert(values.get(k),
                inner.world.ty(method.getParameters().get(k).asType(), env), tree));
        }
        return all;
    }
}
