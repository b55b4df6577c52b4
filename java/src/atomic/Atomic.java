package atomic;

import java.lang.annotation.Documented;
import java.lang.annotation.ElementType;
import java.lang.annotation.Target;

/** The method can be reasoned about as if no other thread ran in between. */
@Documented
@Target(ElementType.METHOD)
public @interface Atomic { }
