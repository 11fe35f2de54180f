import java.lang.invoke.MethodHandle;
import java.lang.invoke.MethodType;
import java.nio.charset.StandardCharsets;
import java.nio.file.Files;
import java.nio.file.Path;
import java.util.ArrayList;
import java.util.List;
import jdk.incubator.foreign.*;

/**
 * An outbox in Java: it judges each message before it is sent, and holds back one that the bank may refuse. It is
 * for Java 17, where foreign calls are in the incubator; from Java 22 on java.lang.foreign has them.
 *
 * <p>Usage: java --add-modules jdk.incubator.foreign --enable-native-access=ALL-UNNAMED Outbox.java LIBRARY BANK ORDERS
 * MESSAGE [ANSWER MESSAGE].. with the bank's answer between two messages, and the library of examples/python/build.sh.
 */
public class Outbox {
    /** What a call returned. */
    record Said(int status, String text) {}

    /** Makes a call: each input with its size, then the buffer, its size, and where the text's size goes. */
    static Said call(String name, List<byte[]> inputs) throws Throwable {
        MethodType type = MethodType.methodType(int.class);
        List<MemoryLayout> layouts = new ArrayList<>();
        for (int i = 0; i <= inputs.size(); i++) {
            type = type.appendParameterTypes(MemoryAddress.class, long.class);
            layouts.add(CLinker.C_POINTER);
            layouts.add(CLinker.C_LONG);
        }
        type = type.appendParameterTypes(MemoryAddress.class);
        layouts.add(CLinker.C_POINTER);
        MemoryAddress at = SymbolLookup.loaderLookup().lookup(name).orElseThrow();
        MethodHandle handle = CLinker.getInstance().downcallHandle(at, type,
            FunctionDescriptor.of(CLinker.C_INT, layouts.toArray(new MemoryLayout[0])));
        try (ResourceScope scope = ResourceScope.newConfinedScope()) {
            List<Object> arguments = new ArrayList<>();
            for (byte[] input : inputs) {
                MemorySegment copy = MemorySegment.allocateNative(Math.max(1, input.length), scope);
                copy.asSlice(0, input.length).copyFrom(MemorySegment.ofArray(input));
                arguments.add(copy.address());
                arguments.add((long) input.length);
            }
            MemorySegment buffer = MemorySegment.allocateNative(1 << 16, scope);
            MemorySegment size = MemorySegment.allocateNative(8, 8, scope);
            arguments.add(buffer.address());
            arguments.add(buffer.byteSize());
            arguments.add(size.address());
            int status = (int) handle.invokeWithArguments(arguments);
            long length = Math.min(MemoryAccess.getLong(size), buffer.byteSize());
            return new Said(status, new String(buffer.asSlice(0, length).toByteArray(), StandardCharsets.ISO_8859_1));
        }
    }

    public static void main(String[] paths) throws Throwable {
        if (paths.length < 4 || paths.length % 2 != 0) {
            System.err.println("usage: Outbox LIBRARY BANK ORDERS MESSAGE [ANSWER MESSAGE]..");
            System.exit(2);
        }
        System.load(Path.of(paths[0]).toAbsolutePath().toString());
        byte[] bank = Files.readAllBytes(Path.of(paths[1])), orders = Files.readAllBytes(Path.of(paths[2]));
        byte[] before = null;
        for (int i = 3; i < paths.length; i += 2) {
            byte[] message = Files.readAllBytes(Path.of(paths[i]));
            Said said = before == null
                ? call("fints_judge", List.of(bank, orders, message))
                : call("fints_judge_after", List.of(bank, orders, before, Files.readAllBytes(Path.of(paths[i - 1])), message));
            if (said.status() != 0) {
                System.out.print(said.text());
                System.out.println(paths[i] + ": held back");
                System.exit(1);
            }
            System.out.println(paths[i] + ": sent");
            before = message;
        }
    }
}
