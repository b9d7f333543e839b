package com.google.api.client.googleapis;

/**
 * A stand-in for the class of this name in Debian's libgoogle-api-client-java, which is version 1.27.1: the calls of
 * libgoogle-api-services-sheets-java refuse to begin with less than 1.31.1. They need nothing that 1.27.1 lacks. With
 * packages from Maven it isn't needed.
 */
public final class GoogleUtils {
    public static final Integer MAJOR_VERSION = 1;
    public static final Integer MINOR_VERSION = 32;
    public static final Integer BUGFIX_VERSION = 1;
    public static final String VERSION = "1.32.1";

    private GoogleUtils() {}
}
