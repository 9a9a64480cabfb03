; ModuleID = 'llvm-link'
source_filename = "llvm-link"
target datalayout = "e-m:e-p270:32:32-p271:32:32-p272:64:64-i64:64-i128:128-f80:128-n8:16:32:64-S128"
target triple = "x86_64-pc-linux-gnu"

%struct._IO_FILE = type { i32, ptr, ptr, ptr, ptr, ptr, ptr, ptr, ptr, ptr, ptr, ptr, ptr, ptr, i32, i32, i64, i16, i8, [1 x i8], ptr, i64, ptr, ptr, ptr, ptr, i64, i32, [20 x i8] }
%struct.number = type { i64, i32, i32, ptr }

@.str = private unnamed_addr constant [35 x i8] c"%s:%u: %s: Assertion `%s' failed.\0A\00", align 1, !dbg !0
@__ctype_b_loc.start = internal global ptr null, align 8, !dbg !7
@classes = internal constant <{ [256 x i16], [128 x i16] }> <{ [256 x i16] [i16 0, i16 0, i16 0, i16 0, i16 0, i16 0, i16 0, i16 0, i16 0, i16 0, i16 0, i16 0, i16 0, i16 0, i16 0, i16 0, i16 0, i16 0, i16 0, i16 0, i16 0, i16 0, i16 0, i16 0, i16 0, i16 0, i16 0, i16 0, i16 0, i16 0, i16 0, i16 0, i16 0, i16 0, i16 0, i16 0, i16 0, i16 0, i16 0, i16 0, i16 0, i16 0, i16 0, i16 0, i16 0, i16 0, i16 0, i16 0, i16 0, i16 0, i16 0, i16 0, i16 0, i16 0, i16 0, i16 0, i16 0, i16 0, i16 0, i16 0, i16 0, i16 0, i16 0, i16 0, i16 0, i16 0, i16 0, i16 0, i16 0, i16 0, i16 0, i16 0, i16 0, i16 0, i16 0, i16 0, i16 0, i16 0, i16 0, i16 0, i16 0, i16 0, i16 0, i16 0, i16 0, i16 0, i16 0, i16 0, i16 0, i16 0, i16 0, i16 0, i16 0, i16 0, i16 0, i16 0, i16 0, i16 0, i16 0, i16 0, i16 0, i16 0, i16 0, i16 0, i16 0, i16 0, i16 0, i16 0, i16 0, i16 0, i16 0, i16 0, i16 0, i16 0, i16 0, i16 0, i16 0, i16 0, i16 0, i16 0, i16 0, i16 0, i16 0, i16 0, i16 0, i16 0, i16 0, i16 0, i16 2, i16 2, i16 2, i16 2, i16 2, i16 2, i16 2, i16 2, i16 2, i16 8195, i16 8194, i16 8194, i16 8194, i16 8194, i16 2, i16 2, i16 2, i16 2, i16 2, i16 2, i16 2, i16 2, i16 2, i16 2, i16 2, i16 2, i16 2, i16 2, i16 2, i16 2, i16 2, i16 2, i16 24577, i16 -16380, i16 -16380, i16 -16380, i16 -16380, i16 -16380, i16 -16380, i16 -16380, i16 -16380, i16 -16380, i16 -16380, i16 -16380, i16 -16380, i16 -16380, i16 -16380, i16 -16380, i16 -10232, i16 -10232, i16 -10232, i16 -10232, i16 -10232, i16 -10232, i16 -10232, i16 -10232, i16 -10232, i16 -10232, i16 -16380, i16 -16380, i16 -16380, i16 -16380, i16 -16380, i16 -16380, i16 -16380, i16 -11000, i16 -11000, i16 -11000, i16 -11000, i16 -11000, i16 -11000, i16 -15096, i16 -15096, i16 -15096, i16 -15096, i16 -15096, i16 -15096, i16 -15096, i16 -15096, i16 -15096, i16 -15096, i16 -15096, i16 -15096, i16 -15096, i16 -15096, i16 -15096, i16 -15096, i16 -15096, i16 -15096, i16 -15096, i16 -15096, i16 -16380, i16 -16380, i16 -16380, i16 -16380, i16 -16380, i16 -16380, i16 -10744, i16 -10744, i16 -10744, i16 -10744, i16 -10744, i16 -10744, i16 -14840, i16 -14840, i16 -14840, i16 -14840, i16 -14840, i16 -14840, i16 -14840, i16 -14840, i16 -14840, i16 -14840, i16 -14840, i16 -14840, i16 -14840, i16 -14840, i16 -14840, i16 -14840, i16 -14840, i16 -14840, i16 -14840, i16 -14840, i16 -16380, i16 -16380, i16 -16380, i16 -16380, i16 2], [128 x i16] zeroinitializer }>, align 16, !dbg !31
@__errno_location.error = internal global i32 0, align 4, !dbg !36
@output = internal global %struct._IO_FILE zeroinitializer, align 8, !dbg !45
@stdout = weak dso_local global ptr @output, align 8, !dbg !52
@errors = internal global %struct._IO_FILE zeroinitializer, align 8, !dbg !116
@stderr = weak dso_local global ptr @errors, align 8, !dbg !114
@random_state = internal global i64 1, align 8, !dbg !118
@strtok.rest = internal global ptr null, align 8, !dbg !124

; Function Attrs: noinline noreturn nounwind optnone uwtable
define weak dso_local void @__assert_fail(ptr noundef %condition, ptr noundef %file, i32 noundef %line, ptr noundef %function) #0 !dbg !148 {
entry:
  %condition.addr = alloca ptr, align 8
  %file.addr = alloca ptr, align 8
  %line.addr = alloca i32, align 4
  %function.addr = alloca ptr, align 8
  store ptr %condition, ptr %condition.addr, align 8
    #dbg_declare(ptr %condition.addr, !151, !DIExpression(), !152)
  store ptr %file, ptr %file.addr, align 8
    #dbg_declare(ptr %file.addr, !153, !DIExpression(), !154)
  store i32 %line, ptr %line.addr, align 4
    #dbg_declare(ptr %line.addr, !155, !DIExpression(), !156)
  store ptr %function, ptr %function.addr, align 8
    #dbg_declare(ptr %function.addr, !157, !DIExpression(), !158)
  %0 = load ptr, ptr %file.addr, align 8, !dbg !159
  %1 = load i32, ptr %line.addr, align 4, !dbg !160
  %2 = load ptr, ptr %function.addr, align 8, !dbg !161
  %3 = load ptr, ptr %condition.addr, align 8, !dbg !162
  %call = call i32 (ptr, ...) @printf(ptr noundef @.str, ptr noundef %0, i32 noundef %1, ptr noundef %2, ptr noundef %3) #8, !dbg !163
  call void @abort() #9, !dbg !164
  unreachable, !dbg !164
}

declare dso_local i32 @printf(ptr noundef, ...) #1

; Function Attrs: noreturn nounwind
declare dso_local void @abort() #2

; Function Attrs: noinline nounwind optnone uwtable
define weak dso_local i32 @isdigit(i32 noundef %c) #3 !dbg !165 {
entry:
  %c.addr = alloca i32, align 4
  store i32 %c, ptr %c.addr, align 4
    #dbg_declare(ptr %c.addr, !168, !DIExpression(), !169)
  %0 = load i32, ptr %c.addr, align 4, !dbg !170
  %call = call i32 @between(i32 noundef %0, i32 noundef 48, i32 noundef 57) #8, !dbg !171
  ret i32 %call, !dbg !172
}

; Function Attrs: noinline nounwind optnone uwtable
define internal i32 @between(i32 noundef %c, i32 noundef %first, i32 noundef %last) #3 !dbg !173 {
entry:
  %c.addr = alloca i32, align 4
  %first.addr = alloca i32, align 4
  %last.addr = alloca i32, align 4
  store i32 %c, ptr %c.addr, align 4
    #dbg_declare(ptr %c.addr, !176, !DIExpression(), !177)
  store i32 %first, ptr %first.addr, align 4
    #dbg_declare(ptr %first.addr, !178, !DIExpression(), !179)
  store i32 %last, ptr %last.addr, align 4
    #dbg_declare(ptr %last.addr, !180, !DIExpression(), !181)
  %0 = load i32, ptr %c.addr, align 4, !dbg !182
  %1 = load i32, ptr %first.addr, align 4, !dbg !183
  %sub = sub i32 %0, %1, !dbg !184
  %2 = load i32, ptr %last.addr, align 4, !dbg !185
  %3 = load i32, ptr %first.addr, align 4, !dbg !186
  %sub1 = sub i32 %2, %3, !dbg !187
  %cmp = icmp ule i32 %sub, %sub1, !dbg !188
  %conv = zext i1 %cmp to i32, !dbg !188
  ret i32 %conv, !dbg !189
}

; Function Attrs: noinline nounwind optnone uwtable
define weak dso_local i32 @isupper(i32 noundef %c) #3 !dbg !190 {
entry:
  %c.addr = alloca i32, align 4
  store i32 %c, ptr %c.addr, align 4
    #dbg_declare(ptr %c.addr, !191, !DIExpression(), !192)
  %0 = load i32, ptr %c.addr, align 4, !dbg !193
  %call = call i32 @between(i32 noundef %0, i32 noundef 65, i32 noundef 90) #8, !dbg !194
  ret i32 %call, !dbg !195
}

; Function Attrs: noinline nounwind optnone uwtable
define weak dso_local i32 @islower(i32 noundef %c) #3 !dbg !196 {
entry:
  %c.addr = alloca i32, align 4
  store i32 %c, ptr %c.addr, align 4
    #dbg_declare(ptr %c.addr, !197, !DIExpression(), !198)
  %0 = load i32, ptr %c.addr, align 4, !dbg !199
  %call = call i32 @between(i32 noundef %0, i32 noundef 97, i32 noundef 122) #8, !dbg !200
  ret i32 %call, !dbg !201
}

; Function Attrs: noinline nounwind optnone uwtable
define weak dso_local i32 @isalpha(i32 noundef %c) #3 !dbg !202 {
entry:
  %c.addr = alloca i32, align 4
  store i32 %c, ptr %c.addr, align 4
    #dbg_declare(ptr %c.addr, !203, !DIExpression(), !204)
  %0 = load i32, ptr %c.addr, align 4, !dbg !205
  %call = call i32 @is_letter(i32 noundef %0) #8, !dbg !206
  ret i32 %call, !dbg !207
}

; Function Attrs: noinline nounwind optnone uwtable
define internal i32 @is_letter(i32 noundef %c) #3 !dbg !208 {
entry:
  %c.addr = alloca i32, align 4
  store i32 %c, ptr %c.addr, align 4
    #dbg_declare(ptr %c.addr, !209, !DIExpression(), !210)
  %0 = load i32, ptr %c.addr, align 4, !dbg !211
  %call = call i32 @between(i32 noundef %0, i32 noundef 65, i32 noundef 90) #8, !dbg !212
  %1 = load i32, ptr %c.addr, align 4, !dbg !213
  %call1 = call i32 @between(i32 noundef %1, i32 noundef 97, i32 noundef 122) #8, !dbg !214
  %or = or i32 %call, %call1, !dbg !215
  ret i32 %or, !dbg !216
}

; Function Attrs: noinline nounwind optnone uwtable
define weak dso_local i32 @isalnum(i32 noundef %c) #3 !dbg !217 {
entry:
  %c.addr = alloca i32, align 4
  store i32 %c, ptr %c.addr, align 4
    #dbg_declare(ptr %c.addr, !218, !DIExpression(), !219)
  %0 = load i32, ptr %c.addr, align 4, !dbg !220
  %call = call i32 @is_letter(i32 noundef %0) #8, !dbg !221
  %1 = load i32, ptr %c.addr, align 4, !dbg !222
  %call1 = call i32 @between(i32 noundef %1, i32 noundef 48, i32 noundef 57) #8, !dbg !223
  %or = or i32 %call, %call1, !dbg !224
  ret i32 %or, !dbg !225
}

; Function Attrs: noinline nounwind optnone uwtable
define weak dso_local i32 @isxdigit(i32 noundef %c) #3 !dbg !226 {
entry:
  %c.addr = alloca i32, align 4
  store i32 %c, ptr %c.addr, align 4
    #dbg_declare(ptr %c.addr, !227, !DIExpression(), !228)
  %0 = load i32, ptr %c.addr, align 4, !dbg !229
  %call = call i32 @between(i32 noundef %0, i32 noundef 48, i32 noundef 57) #8, !dbg !230
  %1 = load i32, ptr %c.addr, align 4, !dbg !231
  %call1 = call i32 @between(i32 noundef %1, i32 noundef 65, i32 noundef 70) #8, !dbg !232
  %or = or i32 %call, %call1, !dbg !233
  %2 = load i32, ptr %c.addr, align 4, !dbg !234
  %call2 = call i32 @between(i32 noundef %2, i32 noundef 97, i32 noundef 102) #8, !dbg !235
  %or3 = or i32 %or, %call2, !dbg !236
  ret i32 %or3, !dbg !237
}

; Function Attrs: noinline nounwind optnone uwtable
define weak dso_local i32 @isblank(i32 noundef %c) #3 !dbg !238 {
entry:
  %c.addr = alloca i32, align 4
  store i32 %c, ptr %c.addr, align 4
    #dbg_declare(ptr %c.addr, !239, !DIExpression(), !240)
  %0 = load i32, ptr %c.addr, align 4, !dbg !241
  %cmp = icmp eq i32 %0, 32, !dbg !242
  %conv = zext i1 %cmp to i32, !dbg !242
  %1 = load i32, ptr %c.addr, align 4, !dbg !243
  %cmp1 = icmp eq i32 %1, 9, !dbg !244
  %conv2 = zext i1 %cmp1 to i32, !dbg !244
  %or = or i32 %conv, %conv2, !dbg !245
  ret i32 %or, !dbg !246
}

; Function Attrs: noinline nounwind optnone uwtable
define weak dso_local i32 @isspace(i32 noundef %c) #3 !dbg !247 {
entry:
  %c.addr = alloca i32, align 4
  store i32 %c, ptr %c.addr, align 4
    #dbg_declare(ptr %c.addr, !248, !DIExpression(), !249)
  %0 = load i32, ptr %c.addr, align 4, !dbg !250
  %cmp = icmp eq i32 %0, 32, !dbg !251
  %conv = zext i1 %cmp to i32, !dbg !251
  %1 = load i32, ptr %c.addr, align 4, !dbg !252
  %call = call i32 @between(i32 noundef %1, i32 noundef 9, i32 noundef 13) #8, !dbg !253
  %or = or i32 %conv, %call, !dbg !254
  ret i32 %or, !dbg !255
}

; Function Attrs: noinline nounwind optnone uwtable
define weak dso_local i32 @iscntrl(i32 noundef %c) #3 !dbg !256 {
entry:
  %c.addr = alloca i32, align 4
  store i32 %c, ptr %c.addr, align 4
    #dbg_declare(ptr %c.addr, !257, !DIExpression(), !258)
  %0 = load i32, ptr %c.addr, align 4, !dbg !259
  %call = call i32 @between(i32 noundef %0, i32 noundef 0, i32 noundef 31) #8, !dbg !260
  %1 = load i32, ptr %c.addr, align 4, !dbg !261
  %cmp = icmp eq i32 %1, 127, !dbg !262
  %conv = zext i1 %cmp to i32, !dbg !262
  %or = or i32 %call, %conv, !dbg !263
  ret i32 %or, !dbg !264
}

; Function Attrs: noinline nounwind optnone uwtable
define weak dso_local i32 @isprint(i32 noundef %c) #3 !dbg !265 {
entry:
  %c.addr = alloca i32, align 4
  store i32 %c, ptr %c.addr, align 4
    #dbg_declare(ptr %c.addr, !266, !DIExpression(), !267)
  %0 = load i32, ptr %c.addr, align 4, !dbg !268
  %call = call i32 @between(i32 noundef %0, i32 noundef 32, i32 noundef 126) #8, !dbg !269
  ret i32 %call, !dbg !270
}

; Function Attrs: noinline nounwind optnone uwtable
define weak dso_local i32 @isgraph(i32 noundef %c) #3 !dbg !271 {
entry:
  %c.addr = alloca i32, align 4
  store i32 %c, ptr %c.addr, align 4
    #dbg_declare(ptr %c.addr, !272, !DIExpression(), !273)
  %0 = load i32, ptr %c.addr, align 4, !dbg !274
  %call = call i32 @between(i32 noundef %0, i32 noundef 33, i32 noundef 126) #8, !dbg !275
  ret i32 %call, !dbg !276
}

; Function Attrs: noinline nounwind optnone uwtable
define weak dso_local i32 @ispunct(i32 noundef %c) #3 !dbg !277 {
entry:
  %c.addr = alloca i32, align 4
  store i32 %c, ptr %c.addr, align 4
    #dbg_declare(ptr %c.addr, !278, !DIExpression(), !279)
  %0 = load i32, ptr %c.addr, align 4, !dbg !280
  %call = call i32 @between(i32 noundef %0, i32 noundef 33, i32 noundef 47) #8, !dbg !281
  %1 = load i32, ptr %c.addr, align 4, !dbg !282
  %call1 = call i32 @between(i32 noundef %1, i32 noundef 58, i32 noundef 64) #8, !dbg !283
  %or = or i32 %call, %call1, !dbg !284
  %2 = load i32, ptr %c.addr, align 4, !dbg !285
  %call2 = call i32 @between(i32 noundef %2, i32 noundef 91, i32 noundef 96) #8, !dbg !286
  %or3 = or i32 %or, %call2, !dbg !287
  %3 = load i32, ptr %c.addr, align 4, !dbg !288
  %call4 = call i32 @between(i32 noundef %3, i32 noundef 123, i32 noundef 126) #8, !dbg !289
  %or5 = or i32 %or3, %call4, !dbg !290
  ret i32 %or5, !dbg !291
}

; Function Attrs: noinline nounwind optnone uwtable
define weak dso_local i32 @tolower(i32 noundef %c) #3 !dbg !292 {
entry:
  %c.addr = alloca i32, align 4
  store i32 %c, ptr %c.addr, align 4
    #dbg_declare(ptr %c.addr, !293, !DIExpression(), !294)
  %0 = load i32, ptr %c.addr, align 4, !dbg !295
  %1 = load i32, ptr %c.addr, align 4, !dbg !296
  %call = call i32 @between(i32 noundef %1, i32 noundef 65, i32 noundef 90) #8, !dbg !297
  %shl = shl i32 %call, 5, !dbg !298
  %or = or i32 %0, %shl, !dbg !299
  ret i32 %or, !dbg !300
}

; Function Attrs: noinline nounwind optnone uwtable
define weak dso_local i32 @toupper(i32 noundef %c) #3 !dbg !301 {
entry:
  %c.addr = alloca i32, align 4
  store i32 %c, ptr %c.addr, align 4
    #dbg_declare(ptr %c.addr, !302, !DIExpression(), !303)
  %0 = load i32, ptr %c.addr, align 4, !dbg !304
  %1 = load i32, ptr %c.addr, align 4, !dbg !305
  %call = call i32 @between(i32 noundef %1, i32 noundef 97, i32 noundef 122) #8, !dbg !306
  %shl = shl i32 %call, 5, !dbg !307
  %not = xor i32 %shl, -1, !dbg !308
  %and = and i32 %0, %not, !dbg !309
  ret i32 %and, !dbg !310
}

; Function Attrs: noinline nounwind optnone willreturn memory(none) uwtable
define weak dso_local ptr @__ctype_b_loc() #4 !dbg !9 {
entry:
  store ptr getelementptr (i16, ptr @classes, i64 128), ptr @__ctype_b_loc.start, align 8, !dbg !311
  ret ptr @__ctype_b_loc.start, !dbg !312
}

; Function Attrs: noinline nounwind optnone willreturn memory(none) uwtable
define weak dso_local ptr @__errno_location() #4 !dbg !38 {
entry:
  ret ptr @__errno_location.error, !dbg !313
}

; Function Attrs: noinline nounwind optnone uwtable
define weak dso_local i32 @fputc(i32 noundef %c, ptr noundef %stream) #3 !dbg !314 {
entry:
  %c.addr = alloca i32, align 4
  %stream.addr = alloca ptr, align 8
  store i32 %c, ptr %c.addr, align 4
    #dbg_declare(ptr %c.addr, !317, !DIExpression(), !318)
  store ptr %stream, ptr %stream.addr, align 8
    #dbg_declare(ptr %stream.addr, !319, !DIExpression(), !320)
  %0 = load i32, ptr %c.addr, align 4, !dbg !321
  %1 = load ptr, ptr %stream.addr, align 8, !dbg !322
  %call = call i32 @put(i32 noundef %0, ptr noundef %1) #8, !dbg !323
  ret i32 %call, !dbg !324
}

; Function Attrs: noinline nounwind optnone uwtable
define internal i32 @put(i32 noundef %c, ptr noundef %stream) #3 !dbg !325 {
entry:
  %c.addr = alloca i32, align 4
  %stream.addr = alloca ptr, align 8
  store i32 %c, ptr %c.addr, align 4
    #dbg_declare(ptr %c.addr, !326, !DIExpression(), !327)
  store ptr %stream, ptr %stream.addr, align 8
    #dbg_declare(ptr %stream.addr, !328, !DIExpression(), !329)
  %0 = load ptr, ptr %stream.addr, align 8, !dbg !330
  %1 = load ptr, ptr @stdout, align 8, !dbg !331
  %cmp = icmp eq ptr %0, %1, !dbg !332
  br i1 %cmp, label %cond.true, label %cond.false, !dbg !330

cond.true:                                        ; preds = %entry
  %2 = load i32, ptr %c.addr, align 4, !dbg !333
  %call = call i32 @putchar(i32 noundef %2) #8, !dbg !334
  br label %cond.end, !dbg !330

cond.false:                                       ; preds = %entry
  %3 = load i32, ptr %c.addr, align 4, !dbg !335
  %conv = trunc i32 %3 to i8, !dbg !336
  %conv1 = zext i8 %conv to i32, !dbg !336
  br label %cond.end, !dbg !330

cond.end:                                         ; preds = %cond.false, %cond.true
  %cond = phi i32 [ %call, %cond.true ], [ %conv1, %cond.false ], !dbg !330
  ret i32 %cond, !dbg !337
}

declare dso_local i32 @putchar(i32 noundef) #1

; Function Attrs: noinline nounwind optnone uwtable
define weak dso_local i32 @putc(i32 noundef %c, ptr noundef %stream) #3 !dbg !338 {
entry:
  %c.addr = alloca i32, align 4
  %stream.addr = alloca ptr, align 8
  store i32 %c, ptr %c.addr, align 4
    #dbg_declare(ptr %c.addr, !339, !DIExpression(), !340)
  store ptr %stream, ptr %stream.addr, align 8
    #dbg_declare(ptr %stream.addr, !341, !DIExpression(), !342)
  %0 = load i32, ptr %c.addr, align 4, !dbg !343
  %1 = load ptr, ptr %stream.addr, align 8, !dbg !344
  %call = call i32 @put(i32 noundef %0, ptr noundef %1) #8, !dbg !345
  ret i32 %call, !dbg !346
}

; Function Attrs: noinline nounwind optnone uwtable
define weak dso_local i32 @fputs(ptr noalias noundef %text, ptr noalias noundef %stream) #3 !dbg !347 {
entry:
  %text.addr = alloca ptr, align 8
  %stream.addr = alloca ptr, align 8
  store ptr %text, ptr %text.addr, align 8
    #dbg_declare(ptr %text.addr, !351, !DIExpression(), !352)
  store ptr %stream, ptr %stream.addr, align 8
    #dbg_declare(ptr %stream.addr, !353, !DIExpression(), !354)
  br label %for.cond, !dbg !355

for.cond:                                         ; preds = %for.inc, %entry
  %0 = load ptr, ptr %text.addr, align 8, !dbg !356
  %1 = load i8, ptr %0, align 1, !dbg !359
  %tobool = icmp ne i8 %1, 0, !dbg !360
  br i1 %tobool, label %for.body, label %for.end, !dbg !360

for.body:                                         ; preds = %for.cond
  %2 = load ptr, ptr %text.addr, align 8, !dbg !361
  %3 = load i8, ptr %2, align 1, !dbg !362
  %conv = sext i8 %3 to i32, !dbg !362
  %4 = load ptr, ptr %stream.addr, align 8, !dbg !363
  %call = call i32 @put(i32 noundef %conv, ptr noundef %4) #8, !dbg !364
  br label %for.inc, !dbg !364

for.inc:                                          ; preds = %for.body
  %5 = load ptr, ptr %text.addr, align 8, !dbg !365
  %incdec.ptr = getelementptr i8, ptr %5, i32 1, !dbg !365
  store ptr %incdec.ptr, ptr %text.addr, align 8, !dbg !365
  br label %for.cond, !dbg !366, !llvm.loop !367

for.end:                                          ; preds = %for.cond
  ret i32 0, !dbg !370
}

; Function Attrs: noinline nounwind optnone willreturn memory(none) uwtable
define weak dso_local i32 @abs(i32 noundef %number) #4 !dbg !371 {
entry:
  %number.addr = alloca i32, align 4
  store i32 %number, ptr %number.addr, align 4
    #dbg_declare(ptr %number.addr, !372, !DIExpression(), !373)
  %0 = load i32, ptr %number.addr, align 4, !dbg !374
  %cmp = icmp slt i32 %0, 0, !dbg !375
  br i1 %cmp, label %cond.true, label %cond.false, !dbg !374

cond.true:                                        ; preds = %entry
  %1 = load i32, ptr %number.addr, align 4, !dbg !376
  %sub = sub i32 0, %1, !dbg !377
  br label %cond.end, !dbg !374

cond.false:                                       ; preds = %entry
  %2 = load i32, ptr %number.addr, align 4, !dbg !378
  br label %cond.end, !dbg !374

cond.end:                                         ; preds = %cond.false, %cond.true
  %cond = phi i32 [ %sub, %cond.true ], [ %2, %cond.false ], !dbg !374
  ret i32 %cond, !dbg !379
}

; Function Attrs: noinline nounwind optnone willreturn memory(none) uwtable
define weak dso_local i64 @labs(i64 noundef %number) #4 !dbg !380 {
entry:
  %number.addr = alloca i64, align 8
  store i64 %number, ptr %number.addr, align 8
    #dbg_declare(ptr %number.addr, !383, !DIExpression(), !384)
  %0 = load i64, ptr %number.addr, align 8, !dbg !385
  %cmp = icmp slt i64 %0, 0, !dbg !386
  br i1 %cmp, label %cond.true, label %cond.false, !dbg !385

cond.true:                                        ; preds = %entry
  %1 = load i64, ptr %number.addr, align 8, !dbg !387
  %sub = sub i64 0, %1, !dbg !388
  br label %cond.end, !dbg !385

cond.false:                                       ; preds = %entry
  %2 = load i64, ptr %number.addr, align 8, !dbg !389
  br label %cond.end, !dbg !385

cond.end:                                         ; preds = %cond.false, %cond.true
  %cond = phi i64 [ %sub, %cond.true ], [ %2, %cond.false ], !dbg !385
  ret i64 %cond, !dbg !390
}

; Function Attrs: noinline nounwind optnone willreturn memory(none) uwtable
define weak dso_local i64 @llabs(i64 noundef %number) #4 !dbg !391 {
entry:
  %number.addr = alloca i64, align 8
  store i64 %number, ptr %number.addr, align 8
    #dbg_declare(ptr %number.addr, !395, !DIExpression(), !396)
  %0 = load i64, ptr %number.addr, align 8, !dbg !397
  %cmp = icmp slt i64 %0, 0, !dbg !398
  br i1 %cmp, label %cond.true, label %cond.false, !dbg !397

cond.true:                                        ; preds = %entry
  %1 = load i64, ptr %number.addr, align 8, !dbg !399
  %sub = sub i64 0, %1, !dbg !400
  br label %cond.end, !dbg !397

cond.false:                                       ; preds = %entry
  %2 = load i64, ptr %number.addr, align 8, !dbg !401
  br label %cond.end, !dbg !397

cond.end:                                         ; preds = %cond.false, %cond.true
  %cond = phi i64 [ %sub, %cond.true ], [ %2, %cond.false ], !dbg !397
  ret i64 %cond, !dbg !402
}

; Function Attrs: noinline nounwind optnone uwtable
define weak dso_local i64 @strtol(ptr noalias noundef nonnull %text, ptr noalias noundef %end, i32 noundef %base) #3 !dbg !403 {
entry:
  %text.addr = alloca ptr, align 8
  %end.addr = alloca ptr, align 8
  %base.addr = alloca i32, align 4
  store ptr %text, ptr %text.addr, align 8
    #dbg_declare(ptr %text.addr, !408, !DIExpression(), !409)
  store ptr %end, ptr %end.addr, align 8
    #dbg_declare(ptr %end.addr, !410, !DIExpression(), !411)
  store i32 %base, ptr %base.addr, align 4
    #dbg_declare(ptr %base.addr, !412, !DIExpression(), !413)
  %0 = load ptr, ptr %text.addr, align 8, !dbg !414
  %1 = load ptr, ptr %end.addr, align 8, !dbg !415
  %2 = load i32, ptr %base.addr, align 4, !dbg !416
  %call = call i64 @to_signed(ptr noundef %0, ptr noundef %1, i32 noundef %2) #8, !dbg !417
  ret i64 %call, !dbg !418
}

; Function Attrs: noinline nounwind optnone uwtable
define internal i64 @to_signed(ptr noundef %text, ptr noundef %end, i32 noundef %base) #3 !dbg !419 {
entry:
  %text.addr = alloca ptr, align 8
  %end.addr = alloca ptr, align 8
  %base.addr = alloca i32, align 4
  %number = alloca %struct.number, align 8
  %most = alloca i64, align 8
  store ptr %text, ptr %text.addr, align 8
    #dbg_declare(ptr %text.addr, !422, !DIExpression(), !423)
  store ptr %end, ptr %end.addr, align 8
    #dbg_declare(ptr %end.addr, !424, !DIExpression(), !425)
  store i32 %base, ptr %base.addr, align 4
    #dbg_declare(ptr %base.addr, !426, !DIExpression(), !427)
    #dbg_declare(ptr %number, !428, !DIExpression(), !435)
  %0 = load ptr, ptr %text.addr, align 8, !dbg !436
  %1 = load i32, ptr %base.addr, align 4, !dbg !437
  %call = call ptr @read_number(ptr noundef %0, i32 noundef %1, ptr noundef %number) #8, !dbg !438
  %2 = load ptr, ptr %end.addr, align 8, !dbg !439
  %tobool = icmp ne ptr %2, null, !dbg !439
  br i1 %tobool, label %if.then, label %if.end, !dbg !441

if.then:                                          ; preds = %entry
  %end1 = getelementptr inbounds %struct.number, ptr %number, i32 0, i32 3, !dbg !442
  %3 = load ptr, ptr %end1, align 8, !dbg !442
  %4 = load ptr, ptr %end.addr, align 8, !dbg !443
  store ptr %3, ptr %4, align 8, !dbg !444
  br label %if.end, !dbg !445

if.end:                                           ; preds = %if.then, %entry
    #dbg_declare(ptr %most, !446, !DIExpression(), !447)
  %is_negative = getelementptr inbounds %struct.number, ptr %number, i32 0, i32 1, !dbg !448
  %5 = load i32, ptr %is_negative, align 8, !dbg !448
  %tobool2 = icmp ne i32 %5, 0, !dbg !449
  %6 = zext i1 %tobool2 to i64, !dbg !449
  %cond = select i1 %tobool2, i64 -9223372036854775808, i64 9223372036854775807, !dbg !449
  store i64 %cond, ptr %most, align 8, !dbg !447
  %magnitude = getelementptr inbounds %struct.number, ptr %number, i32 0, i32 0, !dbg !450
  %7 = load i64, ptr %magnitude, align 8, !dbg !450
  %8 = load i64, ptr %most, align 8, !dbg !452
  %cmp = icmp ugt i64 %7, %8, !dbg !453
  br i1 %cmp, label %if.then3, label %if.end6, !dbg !454

if.then3:                                         ; preds = %if.end
  %call4 = call ptr @__errno_location() #10, !dbg !455
  store i32 34, ptr %call4, align 4, !dbg !457
  %9 = load i64, ptr %most, align 8, !dbg !458
  %magnitude5 = getelementptr inbounds %struct.number, ptr %number, i32 0, i32 0, !dbg !459
  store i64 %9, ptr %magnitude5, align 8, !dbg !460
  br label %if.end6, !dbg !461

if.end6:                                          ; preds = %if.then3, %if.end
  %is_negative7 = getelementptr inbounds %struct.number, ptr %number, i32 0, i32 1, !dbg !462
  %10 = load i32, ptr %is_negative7, align 8, !dbg !462
  %tobool8 = icmp ne i32 %10, 0, !dbg !463
  br i1 %tobool8, label %cond.true, label %cond.false, !dbg !463

cond.true:                                        ; preds = %if.end6
  %magnitude9 = getelementptr inbounds %struct.number, ptr %number, i32 0, i32 0, !dbg !464
  %11 = load i64, ptr %magnitude9, align 8, !dbg !464
  %sub = sub i64 0, %11, !dbg !465
  br label %cond.end, !dbg !463

cond.false:                                       ; preds = %if.end6
  %magnitude10 = getelementptr inbounds %struct.number, ptr %number, i32 0, i32 0, !dbg !466
  %12 = load i64, ptr %magnitude10, align 8, !dbg !466
  br label %cond.end, !dbg !463

cond.end:                                         ; preds = %cond.false, %cond.true
  %cond11 = phi i64 [ %sub, %cond.true ], [ %12, %cond.false ], !dbg !463
  ret i64 %cond11, !dbg !467
}

; Function Attrs: noinline nounwind optnone uwtable
define internal ptr @read_number(ptr noundef %text, i32 noundef %base, ptr noundef %number) #3 !dbg !468 {
entry:
  %retval = alloca ptr, align 8
  %text.addr = alloca ptr, align 8
  %base.addr = alloca i32, align 4
  %number.addr = alloca ptr, align 8
  %.compoundliteral = alloca %struct.number, align 8
  store ptr %text, ptr %text.addr, align 8
    #dbg_declare(ptr %text.addr, !472, !DIExpression(), !473)
  store i32 %base, ptr %base.addr, align 4
    #dbg_declare(ptr %base.addr, !474, !DIExpression(), !475)
  store ptr %number, ptr %number.addr, align 8
    #dbg_declare(ptr %number.addr, !476, !DIExpression(), !477)
  %0 = load ptr, ptr %number.addr, align 8, !dbg !478
  %magnitude = getelementptr inbounds %struct.number, ptr %.compoundliteral, i32 0, i32 0, !dbg !479
  store i64 0, ptr %magnitude, align 8, !dbg !479
  %is_negative = getelementptr inbounds %struct.number, ptr %.compoundliteral, i32 0, i32 1, !dbg !479
  store i32 0, ptr %is_negative, align 8, !dbg !479
  %is_too_large = getelementptr inbounds %struct.number, ptr %.compoundliteral, i32 0, i32 2, !dbg !479
  store i32 0, ptr %is_too_large, align 4, !dbg !479
  %end = getelementptr inbounds %struct.number, ptr %.compoundliteral, i32 0, i32 3, !dbg !479
  %1 = load ptr, ptr %text.addr, align 8, !dbg !480
  store ptr %1, ptr %end, align 8, !dbg !479
  call void @llvm.memcpy.p0.p0.i64(ptr align 8 %0, ptr align 8 %.compoundliteral, i64 24, i1 false), !dbg !481
  %2 = load i32, ptr %base.addr, align 4, !dbg !482
  %cmp = icmp slt i32 %2, 0, !dbg !484
  br i1 %cmp, label %if.then, label %lor.lhs.false, !dbg !485

lor.lhs.false:                                    ; preds = %entry
  %3 = load i32, ptr %base.addr, align 4, !dbg !486
  %cmp1 = icmp eq i32 %3, 1, !dbg !487
  br i1 %cmp1, label %if.then, label %lor.lhs.false2, !dbg !488

lor.lhs.false2:                                   ; preds = %lor.lhs.false
  %4 = load i32, ptr %base.addr, align 4, !dbg !489
  %cmp3 = icmp sgt i32 %4, 36, !dbg !490
  br i1 %cmp3, label %if.then, label %if.end, !dbg !491

if.then:                                          ; preds = %lor.lhs.false2, %lor.lhs.false, %entry
  %call = call ptr @__errno_location() #10, !dbg !492
  store i32 22, ptr %call, align 4, !dbg !494
  %5 = load ptr, ptr %number.addr, align 8, !dbg !495
  store ptr %5, ptr %retval, align 8, !dbg !496
  br label %return, !dbg !496

if.end:                                           ; preds = %lor.lhs.false2
  br label %while.cond, !dbg !497

while.cond:                                       ; preds = %while.body, %if.end
  %6 = load ptr, ptr %text.addr, align 8, !dbg !498
  %7 = load i8, ptr %6, align 1, !dbg !499
  %call4 = call i32 @is_space(i8 noundef signext %7) #8, !dbg !500
  %tobool = icmp ne i32 %call4, 0, !dbg !497
  br i1 %tobool, label %while.body, label %while.end, !dbg !497

while.body:                                       ; preds = %while.cond
  %8 = load ptr, ptr %text.addr, align 8, !dbg !501
  %incdec.ptr = getelementptr i8, ptr %8, i32 1, !dbg !501
  store ptr %incdec.ptr, ptr %text.addr, align 8, !dbg !501
  br label %while.cond, !dbg !497, !llvm.loop !502

while.end:                                        ; preds = %while.cond
  %9 = load ptr, ptr %text.addr, align 8, !dbg !503
  %10 = load i8, ptr %9, align 1, !dbg !504
  %conv = sext i8 %10 to i32, !dbg !504
  %cmp5 = icmp eq i32 %conv, 45, !dbg !505
  %conv6 = zext i1 %cmp5 to i32, !dbg !505
  %11 = load ptr, ptr %number.addr, align 8, !dbg !506
  %is_negative7 = getelementptr inbounds %struct.number, ptr %11, i32 0, i32 1, !dbg !507
  store i32 %conv6, ptr %is_negative7, align 8, !dbg !508
  %12 = load ptr, ptr %text.addr, align 8, !dbg !509
  %13 = load i8, ptr %12, align 1, !dbg !511
  %conv8 = sext i8 %13 to i32, !dbg !511
  %cmp9 = icmp eq i32 %conv8, 45, !dbg !512
  br i1 %cmp9, label %if.then15, label %lor.lhs.false11, !dbg !513

lor.lhs.false11:                                  ; preds = %while.end
  %14 = load ptr, ptr %text.addr, align 8, !dbg !514
  %15 = load i8, ptr %14, align 1, !dbg !515
  %conv12 = sext i8 %15 to i32, !dbg !515
  %cmp13 = icmp eq i32 %conv12, 43, !dbg !516
  br i1 %cmp13, label %if.then15, label %if.end17, !dbg !517

if.then15:                                        ; preds = %lor.lhs.false11, %while.end
  %16 = load ptr, ptr %text.addr, align 8, !dbg !518
  %incdec.ptr16 = getelementptr i8, ptr %16, i32 1, !dbg !518
  store ptr %incdec.ptr16, ptr %text.addr, align 8, !dbg !518
  br label %if.end17, !dbg !519

if.end17:                                         ; preds = %if.then15, %lor.lhs.false11
  %17 = load i32, ptr %base.addr, align 4, !dbg !520
  %cmp18 = icmp eq i32 %17, 0, !dbg !522
  br i1 %cmp18, label %land.lhs.true, label %lor.lhs.false20, !dbg !523

lor.lhs.false20:                                  ; preds = %if.end17
  %18 = load i32, ptr %base.addr, align 4, !dbg !524
  %cmp21 = icmp eq i32 %18, 16, !dbg !525
  br i1 %cmp21, label %land.lhs.true, label %if.else, !dbg !526

land.lhs.true:                                    ; preds = %lor.lhs.false20, %if.end17
  %19 = load ptr, ptr %text.addr, align 8, !dbg !527
  %call23 = call i32 @has_prefix(ptr noundef %19) #8, !dbg !528
  %tobool24 = icmp ne i32 %call23, 0, !dbg !528
  br i1 %tobool24, label %if.then25, label %if.else, !dbg !529

if.then25:                                        ; preds = %land.lhs.true
  %20 = load ptr, ptr %text.addr, align 8, !dbg !530
  %add.ptr = getelementptr i8, ptr %20, i64 2, !dbg !530
  store ptr %add.ptr, ptr %text.addr, align 8, !dbg !530
  store i32 16, ptr %base.addr, align 4, !dbg !532
  br label %if.end33, !dbg !533

if.else:                                          ; preds = %land.lhs.true, %lor.lhs.false20
  %21 = load i32, ptr %base.addr, align 4, !dbg !534
  %cmp26 = icmp eq i32 %21, 0, !dbg !536
  br i1 %cmp26, label %if.then28, label %if.end32, !dbg !537

if.then28:                                        ; preds = %if.else
  %22 = load ptr, ptr %text.addr, align 8, !dbg !538
  %23 = load i8, ptr %22, align 1, !dbg !540
  %conv29 = sext i8 %23 to i32, !dbg !540
  %cmp30 = icmp eq i32 %conv29, 48, !dbg !541
  %24 = zext i1 %cmp30 to i64, !dbg !540
  %cond = select i1 %cmp30, i32 8, i32 10, !dbg !540
  store i32 %cond, ptr %base.addr, align 4, !dbg !542
  br label %if.end32, !dbg !543

if.end32:                                         ; preds = %if.then28, %if.else
  br label %if.end33

if.end33:                                         ; preds = %if.end32, %if.then25
  %25 = load ptr, ptr %text.addr, align 8, !dbg !544
  %26 = load i32, ptr %base.addr, align 4, !dbg !545
  %27 = load ptr, ptr %number.addr, align 8, !dbg !546
  call void @read_digits(ptr noundef %25, i32 noundef %26, ptr noundef %27) #8, !dbg !547
  %28 = load ptr, ptr %number.addr, align 8, !dbg !548
  store ptr %28, ptr %retval, align 8, !dbg !549
  br label %return, !dbg !549

return:                                           ; preds = %if.end33, %if.then
  %29 = load ptr, ptr %retval, align 8, !dbg !550
  ret ptr %29, !dbg !550
}

; Function Attrs: nocallback nofree nounwind willreturn memory(argmem: readwrite)
declare void @llvm.memcpy.p0.p0.i64(ptr noalias nocapture writeonly, ptr noalias nocapture readonly, i64, i1 immarg) #5

; Function Attrs: noinline nounwind optnone uwtable
define internal i32 @is_space(i8 noundef signext %c) #3 !dbg !551 {
entry:
  %c.addr = alloca i8, align 1
  store i8 %c, ptr %c.addr, align 1
    #dbg_declare(ptr %c.addr, !554, !DIExpression(), !555)
  %0 = load i8, ptr %c.addr, align 1, !dbg !556
  %conv = sext i8 %0 to i32, !dbg !556
  %cmp = icmp eq i32 %conv, 32, !dbg !557
  br i1 %cmp, label %lor.end, label %lor.rhs, !dbg !558

lor.rhs:                                          ; preds = %entry
  %1 = load i8, ptr %c.addr, align 1, !dbg !559
  %conv2 = sext i8 %1 to i32, !dbg !559
  %cmp3 = icmp sge i32 %conv2, 9, !dbg !560
  br i1 %cmp3, label %land.rhs, label %land.end, !dbg !561

land.rhs:                                         ; preds = %lor.rhs
  %2 = load i8, ptr %c.addr, align 1, !dbg !562
  %conv5 = sext i8 %2 to i32, !dbg !562
  %cmp6 = icmp sle i32 %conv5, 13, !dbg !563
  br label %land.end

land.end:                                         ; preds = %land.rhs, %lor.rhs
  %3 = phi i1 [ false, %lor.rhs ], [ %cmp6, %land.rhs ], !dbg !564
  br label %lor.end, !dbg !558

lor.end:                                          ; preds = %land.end, %entry
  %4 = phi i1 [ true, %entry ], [ %3, %land.end ]
  %lor.ext = zext i1 %4 to i32, !dbg !558
  ret i32 %lor.ext, !dbg !565
}

; Function Attrs: noinline nounwind optnone uwtable
define internal i32 @has_prefix(ptr noundef %text) #3 !dbg !566 {
entry:
  %text.addr = alloca ptr, align 8
  store ptr %text, ptr %text.addr, align 8
    #dbg_declare(ptr %text.addr, !569, !DIExpression(), !570)
  %0 = load ptr, ptr %text.addr, align 8, !dbg !571
  %arrayidx = getelementptr i8, ptr %0, i64 0, !dbg !571
  %1 = load i8, ptr %arrayidx, align 1, !dbg !571
  %conv = sext i8 %1 to i32, !dbg !571
  %cmp = icmp eq i32 %conv, 48, !dbg !572
  br i1 %cmp, label %land.lhs.true, label %land.end, !dbg !573

land.lhs.true:                                    ; preds = %entry
  %2 = load ptr, ptr %text.addr, align 8, !dbg !574
  %arrayidx2 = getelementptr i8, ptr %2, i64 1, !dbg !574
  %3 = load i8, ptr %arrayidx2, align 1, !dbg !574
  %conv3 = sext i8 %3 to i32, !dbg !574
  %cmp4 = icmp eq i32 %conv3, 120, !dbg !575
  br i1 %cmp4, label %land.rhs, label %lor.lhs.false, !dbg !576

lor.lhs.false:                                    ; preds = %land.lhs.true
  %4 = load ptr, ptr %text.addr, align 8, !dbg !577
  %arrayidx6 = getelementptr i8, ptr %4, i64 1, !dbg !577
  %5 = load i8, ptr %arrayidx6, align 1, !dbg !577
  %conv7 = sext i8 %5 to i32, !dbg !577
  %cmp8 = icmp eq i32 %conv7, 88, !dbg !578
  br i1 %cmp8, label %land.rhs, label %land.end, !dbg !579

land.rhs:                                         ; preds = %lor.lhs.false, %land.lhs.true
  %6 = load ptr, ptr %text.addr, align 8, !dbg !580
  %arrayidx10 = getelementptr i8, ptr %6, i64 2, !dbg !580
  %7 = load i8, ptr %arrayidx10, align 1, !dbg !580
  %call = call i32 @digit(i8 noundef signext %7) #8, !dbg !581
  %cmp11 = icmp ult i32 %call, 16, !dbg !582
  br label %land.end

land.end:                                         ; preds = %land.rhs, %lor.lhs.false, %entry
  %8 = phi i1 [ false, %lor.lhs.false ], [ false, %entry ], [ %cmp11, %land.rhs ], !dbg !583
  %land.ext = zext i1 %8 to i32, !dbg !579
  ret i32 %land.ext, !dbg !584
}

; Function Attrs: noinline nounwind optnone uwtable
define internal void @read_digits(ptr noundef %text, i32 noundef %base, ptr noundef %number) #3 !dbg !585 {
entry:
  %text.addr = alloca ptr, align 8
  %base.addr = alloca i32, align 4
  %number.addr = alloca ptr, align 8
  %next = alloca i32, align 4
  store ptr %text, ptr %text.addr, align 8
    #dbg_declare(ptr %text.addr, !588, !DIExpression(), !589)
  store i32 %base, ptr %base.addr, align 4
    #dbg_declare(ptr %base.addr, !590, !DIExpression(), !591)
  store ptr %number, ptr %number.addr, align 8
    #dbg_declare(ptr %number.addr, !592, !DIExpression(), !593)
  br label %for.cond, !dbg !594

for.cond:                                         ; preds = %for.inc, %entry
  %0 = load ptr, ptr %text.addr, align 8, !dbg !595
  %1 = load i8, ptr %0, align 1, !dbg !598
  %call = call i32 @digit(i8 noundef signext %1) #8, !dbg !599
  %2 = load i32, ptr %base.addr, align 4, !dbg !600
  %cmp = icmp ult i32 %call, %2, !dbg !601
  br i1 %cmp, label %for.body, label %for.end, !dbg !602

for.body:                                         ; preds = %for.cond
    #dbg_declare(ptr %next, !603, !DIExpression(), !605)
  %3 = load ptr, ptr %text.addr, align 8, !dbg !606
  %4 = load i8, ptr %3, align 1, !dbg !607
  %call1 = call i32 @digit(i8 noundef signext %4) #8, !dbg !608
  store i32 %call1, ptr %next, align 4, !dbg !605
  %5 = load ptr, ptr %number.addr, align 8, !dbg !609
  %magnitude = getelementptr inbounds %struct.number, ptr %5, i32 0, i32 0, !dbg !611
  %6 = load i64, ptr %magnitude, align 8, !dbg !611
  %7 = load i32, ptr %next, align 4, !dbg !612
  %conv = zext i32 %7 to i64, !dbg !612
  %sub = sub i64 -1, %conv, !dbg !613
  %8 = load i32, ptr %base.addr, align 4, !dbg !614
  %conv2 = zext i32 %8 to i64, !dbg !614
  %div = udiv i64 %sub, %conv2, !dbg !615
  %cmp3 = icmp ugt i64 %6, %div, !dbg !616
  br i1 %cmp3, label %if.then, label %if.end, !dbg !617

if.then:                                          ; preds = %for.body
  %9 = load ptr, ptr %number.addr, align 8, !dbg !618
  %is_too_large = getelementptr inbounds %struct.number, ptr %9, i32 0, i32 2, !dbg !619
  store i32 1, ptr %is_too_large, align 4, !dbg !620
  br label %if.end, !dbg !618

if.end:                                           ; preds = %if.then, %for.body
  %10 = load ptr, ptr %number.addr, align 8, !dbg !621
  %magnitude5 = getelementptr inbounds %struct.number, ptr %10, i32 0, i32 0, !dbg !622
  %11 = load i64, ptr %magnitude5, align 8, !dbg !622
  %12 = load i32, ptr %base.addr, align 4, !dbg !623
  %conv6 = zext i32 %12 to i64, !dbg !623
  %mul = mul i64 %11, %conv6, !dbg !624
  %13 = load i32, ptr %next, align 4, !dbg !625
  %conv7 = zext i32 %13 to i64, !dbg !625
  %add = add i64 %mul, %conv7, !dbg !626
  %14 = load ptr, ptr %number.addr, align 8, !dbg !627
  %magnitude8 = getelementptr inbounds %struct.number, ptr %14, i32 0, i32 0, !dbg !628
  store i64 %add, ptr %magnitude8, align 8, !dbg !629
  %15 = load ptr, ptr %text.addr, align 8, !dbg !630
  %add.ptr = getelementptr i8, ptr %15, i64 1, !dbg !631
  %16 = load ptr, ptr %number.addr, align 8, !dbg !632
  %end = getelementptr inbounds %struct.number, ptr %16, i32 0, i32 3, !dbg !633
  store ptr %add.ptr, ptr %end, align 8, !dbg !634
  br label %for.inc, !dbg !635

for.inc:                                          ; preds = %if.end
  %17 = load ptr, ptr %text.addr, align 8, !dbg !636
  %incdec.ptr = getelementptr i8, ptr %17, i32 1, !dbg !636
  store ptr %incdec.ptr, ptr %text.addr, align 8, !dbg !636
  br label %for.cond, !dbg !637, !llvm.loop !638

for.end:                                          ; preds = %for.cond
  %18 = load ptr, ptr %number.addr, align 8, !dbg !640
  %is_too_large9 = getelementptr inbounds %struct.number, ptr %18, i32 0, i32 2, !dbg !642
  %19 = load i32, ptr %is_too_large9, align 4, !dbg !642
  %tobool = icmp ne i32 %19, 0, !dbg !640
  br i1 %tobool, label %if.then10, label %if.end12, !dbg !643

if.then10:                                        ; preds = %for.end
  %20 = load ptr, ptr %number.addr, align 8, !dbg !644
  %magnitude11 = getelementptr inbounds %struct.number, ptr %20, i32 0, i32 0, !dbg !645
  store i64 -1, ptr %magnitude11, align 8, !dbg !646
  br label %if.end12, !dbg !644

if.end12:                                         ; preds = %if.then10, %for.end
  ret void, !dbg !647
}

; Function Attrs: noinline nounwind optnone uwtable
define internal i32 @digit(i8 noundef signext %c) #3 !dbg !648 {
entry:
  %retval = alloca i32, align 4
  %c.addr = alloca i8, align 1
  store i8 %c, ptr %c.addr, align 1
    #dbg_declare(ptr %c.addr, !651, !DIExpression(), !652)
  %0 = load i8, ptr %c.addr, align 1, !dbg !653
  %conv = sext i8 %0 to i32, !dbg !653
  %cmp = icmp sge i32 %conv, 48, !dbg !655
  br i1 %cmp, label %land.lhs.true, label %if.end, !dbg !656

land.lhs.true:                                    ; preds = %entry
  %1 = load i8, ptr %c.addr, align 1, !dbg !657
  %conv2 = sext i8 %1 to i32, !dbg !657
  %cmp3 = icmp sle i32 %conv2, 57, !dbg !658
  br i1 %cmp3, label %if.then, label %if.end, !dbg !659

if.then:                                          ; preds = %land.lhs.true
  %2 = load i8, ptr %c.addr, align 1, !dbg !660
  %conv5 = sext i8 %2 to i32, !dbg !660
  %sub = sub i32 %conv5, 48, !dbg !661
  store i32 %sub, ptr %retval, align 4, !dbg !662
  br label %return, !dbg !662

if.end:                                           ; preds = %land.lhs.true, %entry
  %3 = load i8, ptr %c.addr, align 1, !dbg !663
  %conv6 = sext i8 %3 to i32, !dbg !663
  %cmp7 = icmp sge i32 %conv6, 97, !dbg !665
  br i1 %cmp7, label %land.lhs.true9, label %if.end16, !dbg !666

land.lhs.true9:                                   ; preds = %if.end
  %4 = load i8, ptr %c.addr, align 1, !dbg !667
  %conv10 = sext i8 %4 to i32, !dbg !667
  %cmp11 = icmp sle i32 %conv10, 122, !dbg !668
  br i1 %cmp11, label %if.then13, label %if.end16, !dbg !669

if.then13:                                        ; preds = %land.lhs.true9
  %5 = load i8, ptr %c.addr, align 1, !dbg !670
  %conv14 = sext i8 %5 to i32, !dbg !670
  %sub15 = sub i32 %conv14, 97, !dbg !671
  %add = add i32 %sub15, 10, !dbg !672
  store i32 %add, ptr %retval, align 4, !dbg !673
  br label %return, !dbg !673

if.end16:                                         ; preds = %land.lhs.true9, %if.end
  %6 = load i8, ptr %c.addr, align 1, !dbg !674
  %conv17 = sext i8 %6 to i32, !dbg !674
  %cmp18 = icmp sge i32 %conv17, 65, !dbg !676
  br i1 %cmp18, label %land.lhs.true20, label %if.end28, !dbg !677

land.lhs.true20:                                  ; preds = %if.end16
  %7 = load i8, ptr %c.addr, align 1, !dbg !678
  %conv21 = sext i8 %7 to i32, !dbg !678
  %cmp22 = icmp sle i32 %conv21, 90, !dbg !679
  br i1 %cmp22, label %if.then24, label %if.end28, !dbg !680

if.then24:                                        ; preds = %land.lhs.true20
  %8 = load i8, ptr %c.addr, align 1, !dbg !681
  %conv25 = sext i8 %8 to i32, !dbg !681
  %sub26 = sub i32 %conv25, 65, !dbg !682
  %add27 = add i32 %sub26, 10, !dbg !683
  store i32 %add27, ptr %retval, align 4, !dbg !684
  br label %return, !dbg !684

if.end28:                                         ; preds = %land.lhs.true20, %if.end16
  store i32 36, ptr %retval, align 4, !dbg !685
  br label %return, !dbg !685

return:                                           ; preds = %if.end28, %if.then24, %if.then13, %if.then
  %9 = load i32, ptr %retval, align 4, !dbg !686
  ret i32 %9, !dbg !686
}

; Function Attrs: noinline nounwind optnone uwtable
define weak dso_local i64 @strtoll(ptr noalias noundef nonnull %text, ptr noalias noundef %end, i32 noundef %base) #3 !dbg !687 {
entry:
  %text.addr = alloca ptr, align 8
  %end.addr = alloca ptr, align 8
  %base.addr = alloca i32, align 4
  store ptr %text, ptr %text.addr, align 8
    #dbg_declare(ptr %text.addr, !690, !DIExpression(), !691)
  store ptr %end, ptr %end.addr, align 8
    #dbg_declare(ptr %end.addr, !692, !DIExpression(), !693)
  store i32 %base, ptr %base.addr, align 4
    #dbg_declare(ptr %base.addr, !694, !DIExpression(), !695)
  %0 = load ptr, ptr %text.addr, align 8, !dbg !696
  %1 = load ptr, ptr %end.addr, align 8, !dbg !697
  %2 = load i32, ptr %base.addr, align 4, !dbg !698
  %call = call i64 @to_signed(ptr noundef %0, ptr noundef %1, i32 noundef %2) #8, !dbg !699
  ret i64 %call, !dbg !700
}

; Function Attrs: noinline nounwind optnone uwtable
define weak dso_local i64 @strtoul(ptr noalias noundef nonnull %text, ptr noalias noundef %end, i32 noundef %base) #3 !dbg !701 {
entry:
  %text.addr = alloca ptr, align 8
  %end.addr = alloca ptr, align 8
  %base.addr = alloca i32, align 4
  store ptr %text, ptr %text.addr, align 8
    #dbg_declare(ptr %text.addr, !704, !DIExpression(), !705)
  store ptr %end, ptr %end.addr, align 8
    #dbg_declare(ptr %end.addr, !706, !DIExpression(), !707)
  store i32 %base, ptr %base.addr, align 4
    #dbg_declare(ptr %base.addr, !708, !DIExpression(), !709)
  %0 = load ptr, ptr %text.addr, align 8, !dbg !710
  %1 = load ptr, ptr %end.addr, align 8, !dbg !711
  %2 = load i32, ptr %base.addr, align 4, !dbg !712
  %call = call i64 @to_unsigned(ptr noundef %0, ptr noundef %1, i32 noundef %2) #8, !dbg !713
  ret i64 %call, !dbg !714
}

; Function Attrs: noinline nounwind optnone uwtable
define internal i64 @to_unsigned(ptr noundef %text, ptr noundef %end, i32 noundef %base) #3 !dbg !715 {
entry:
  %retval = alloca i64, align 8
  %text.addr = alloca ptr, align 8
  %end.addr = alloca ptr, align 8
  %base.addr = alloca i32, align 4
  %number = alloca %struct.number, align 8
  store ptr %text, ptr %text.addr, align 8
    #dbg_declare(ptr %text.addr, !718, !DIExpression(), !719)
  store ptr %end, ptr %end.addr, align 8
    #dbg_declare(ptr %end.addr, !720, !DIExpression(), !721)
  store i32 %base, ptr %base.addr, align 4
    #dbg_declare(ptr %base.addr, !722, !DIExpression(), !723)
    #dbg_declare(ptr %number, !724, !DIExpression(), !725)
  %0 = load ptr, ptr %text.addr, align 8, !dbg !726
  %1 = load i32, ptr %base.addr, align 4, !dbg !727
  %call = call ptr @read_number(ptr noundef %0, i32 noundef %1, ptr noundef %number) #8, !dbg !728
  %2 = load ptr, ptr %end.addr, align 8, !dbg !729
  %tobool = icmp ne ptr %2, null, !dbg !729
  br i1 %tobool, label %if.then, label %if.end, !dbg !731

if.then:                                          ; preds = %entry
  %end1 = getelementptr inbounds %struct.number, ptr %number, i32 0, i32 3, !dbg !732
  %3 = load ptr, ptr %end1, align 8, !dbg !732
  %4 = load ptr, ptr %end.addr, align 8, !dbg !733
  store ptr %3, ptr %4, align 8, !dbg !734
  br label %if.end, !dbg !735

if.end:                                           ; preds = %if.then, %entry
  %is_too_large = getelementptr inbounds %struct.number, ptr %number, i32 0, i32 2, !dbg !736
  %5 = load i32, ptr %is_too_large, align 4, !dbg !736
  %tobool2 = icmp ne i32 %5, 0, !dbg !738
  br i1 %tobool2, label %if.then3, label %if.end5, !dbg !739

if.then3:                                         ; preds = %if.end
  %call4 = call ptr @__errno_location() #10, !dbg !740
  store i32 34, ptr %call4, align 4, !dbg !742
  store i64 -1, ptr %retval, align 8, !dbg !743
  br label %return, !dbg !743

if.end5:                                          ; preds = %if.end
  %is_negative = getelementptr inbounds %struct.number, ptr %number, i32 0, i32 1, !dbg !744
  %6 = load i32, ptr %is_negative, align 8, !dbg !744
  %tobool6 = icmp ne i32 %6, 0, !dbg !745
  br i1 %tobool6, label %cond.true, label %cond.false, !dbg !745

cond.true:                                        ; preds = %if.end5
  %magnitude = getelementptr inbounds %struct.number, ptr %number, i32 0, i32 0, !dbg !746
  %7 = load i64, ptr %magnitude, align 8, !dbg !746
  %sub = sub i64 0, %7, !dbg !747
  br label %cond.end, !dbg !745

cond.false:                                       ; preds = %if.end5
  %magnitude7 = getelementptr inbounds %struct.number, ptr %number, i32 0, i32 0, !dbg !748
  %8 = load i64, ptr %magnitude7, align 8, !dbg !748
  br label %cond.end, !dbg !745

cond.end:                                         ; preds = %cond.false, %cond.true
  %cond = phi i64 [ %sub, %cond.true ], [ %8, %cond.false ], !dbg !745
  store i64 %cond, ptr %retval, align 8, !dbg !749
  br label %return, !dbg !749

return:                                           ; preds = %cond.end, %if.then3
  %9 = load i64, ptr %retval, align 8, !dbg !750
  ret i64 %9, !dbg !750
}

; Function Attrs: noinline nounwind optnone uwtable
define weak dso_local i64 @strtoull(ptr noalias noundef nonnull %text, ptr noalias noundef %end, i32 noundef %base) #3 !dbg !751 {
entry:
  %text.addr = alloca ptr, align 8
  %end.addr = alloca ptr, align 8
  %base.addr = alloca i32, align 4
  store ptr %text, ptr %text.addr, align 8
    #dbg_declare(ptr %text.addr, !755, !DIExpression(), !756)
  store ptr %end, ptr %end.addr, align 8
    #dbg_declare(ptr %end.addr, !757, !DIExpression(), !758)
  store i32 %base, ptr %base.addr, align 4
    #dbg_declare(ptr %base.addr, !759, !DIExpression(), !760)
  %0 = load ptr, ptr %text.addr, align 8, !dbg !761
  %1 = load ptr, ptr %end.addr, align 8, !dbg !762
  %2 = load i32, ptr %base.addr, align 4, !dbg !763
  %call = call i64 @to_unsigned(ptr noundef %0, ptr noundef %1, i32 noundef %2) #8, !dbg !764
  ret i64 %call, !dbg !765
}

; Function Attrs: noinline nounwind optnone willreturn memory(read) uwtable
define weak dso_local i32 @atoi(ptr noundef nonnull %text) #6 !dbg !766 {
entry:
  %text.addr = alloca ptr, align 8
  store ptr %text, ptr %text.addr, align 8
    #dbg_declare(ptr %text.addr, !767, !DIExpression(), !768)
  %0 = load ptr, ptr %text.addr, align 8, !dbg !769
  %call = call i64 @to_signed(ptr noundef %0, ptr noundef null, i32 noundef 10) #8, !dbg !770
  %conv = trunc i64 %call to i32, !dbg !771
  ret i32 %conv, !dbg !772
}

; Function Attrs: noinline nounwind optnone willreturn memory(read) uwtable
define weak dso_local i64 @atol(ptr noundef nonnull %text) #6 !dbg !773 {
entry:
  %text.addr = alloca ptr, align 8
  store ptr %text, ptr %text.addr, align 8
    #dbg_declare(ptr %text.addr, !776, !DIExpression(), !777)
  %0 = load ptr, ptr %text.addr, align 8, !dbg !778
  %call = call i64 @to_signed(ptr noundef %0, ptr noundef null, i32 noundef 10) #8, !dbg !779
  ret i64 %call, !dbg !780
}

; Function Attrs: noinline nounwind optnone willreturn memory(read) uwtable
define weak dso_local i64 @atoll(ptr noundef nonnull %text) #6 !dbg !781 {
entry:
  %text.addr = alloca ptr, align 8
  store ptr %text, ptr %text.addr, align 8
    #dbg_declare(ptr %text.addr, !784, !DIExpression(), !785)
  %0 = load ptr, ptr %text.addr, align 8, !dbg !786
  %call = call i64 @to_signed(ptr noundef %0, ptr noundef null, i32 noundef 10) #8, !dbg !787
  ret i64 %call, !dbg !788
}

; Function Attrs: noinline nounwind optnone uwtable
define weak dso_local void @srand(i32 noundef %seed) #3 !dbg !789 {
entry:
  %seed.addr = alloca i32, align 4
  store i32 %seed, ptr %seed.addr, align 4
    #dbg_declare(ptr %seed.addr, !792, !DIExpression(), !793)
  %0 = load i32, ptr %seed.addr, align 4, !dbg !794
  %conv = zext i32 %0 to i64, !dbg !794
  store i64 %conv, ptr @random_state, align 8, !dbg !795
  ret void, !dbg !796
}

; Function Attrs: noinline nounwind optnone uwtable
define weak dso_local i32 @rand() #3 !dbg !797 {
entry:
  %0 = load i64, ptr @random_state, align 8, !dbg !800
  %mul = mul i64 %0, 6364136223846793005, !dbg !801
  %add = add i64 %mul, 1442695040888963407, !dbg !802
  store i64 %add, ptr @random_state, align 8, !dbg !803
  %1 = load i64, ptr @random_state, align 8, !dbg !804
  %shr = lshr i64 %1, 33, !dbg !805
  %conv = trunc i64 %shr to i32, !dbg !806
  ret i32 %conv, !dbg !807
}

; Function Attrs: noinline nounwind optnone uwtable
define weak dso_local ptr @strcpy(ptr noalias noundef nonnull %to, ptr noalias noundef nonnull %from) #3 !dbg !808 {
entry:
  %to.addr = alloca ptr, align 8
  %from.addr = alloca ptr, align 8
  %k = alloca i64, align 8
  store ptr %to, ptr %to.addr, align 8
    #dbg_declare(ptr %to.addr, !809, !DIExpression(), !810)
  store ptr %from, ptr %from.addr, align 8
    #dbg_declare(ptr %from.addr, !811, !DIExpression(), !812)
    #dbg_declare(ptr %k, !813, !DIExpression(), !814)
  store i64 0, ptr %k, align 8, !dbg !814
  br label %while.cond, !dbg !815

while.cond:                                       ; preds = %while.body, %entry
  %0 = load ptr, ptr %from.addr, align 8, !dbg !816
  %1 = load i64, ptr %k, align 8, !dbg !817
  %arrayidx = getelementptr i8, ptr %0, i64 %1, !dbg !816
  %2 = load i8, ptr %arrayidx, align 1, !dbg !816
  %3 = load ptr, ptr %to.addr, align 8, !dbg !818
  %4 = load i64, ptr %k, align 8, !dbg !819
  %arrayidx1 = getelementptr i8, ptr %3, i64 %4, !dbg !818
  store i8 %2, ptr %arrayidx1, align 1, !dbg !820
  %tobool = icmp ne i8 %2, 0, !dbg !815
  br i1 %tobool, label %while.body, label %while.end, !dbg !815

while.body:                                       ; preds = %while.cond
  %5 = load i64, ptr %k, align 8, !dbg !821
  %inc = add i64 %5, 1, !dbg !821
  store i64 %inc, ptr %k, align 8, !dbg !821
  br label %while.cond, !dbg !815, !llvm.loop !822

while.end:                                        ; preds = %while.cond
  %6 = load ptr, ptr %to.addr, align 8, !dbg !823
  ret ptr %6, !dbg !824
}

; Function Attrs: noinline nounwind optnone uwtable
define weak dso_local ptr @stpcpy(ptr noalias noundef nonnull %to, ptr noalias noundef nonnull %from) #3 !dbg !825 {
entry:
  %to.addr = alloca ptr, align 8
  %from.addr = alloca ptr, align 8
  store ptr %to, ptr %to.addr, align 8
    #dbg_declare(ptr %to.addr, !826, !DIExpression(), !827)
  store ptr %from, ptr %from.addr, align 8
    #dbg_declare(ptr %from.addr, !828, !DIExpression(), !829)
  br label %for.cond, !dbg !830

for.cond:                                         ; preds = %for.inc, %entry
  %0 = load ptr, ptr %from.addr, align 8, !dbg !831
  %1 = load i8, ptr %0, align 1, !dbg !834
  %2 = load ptr, ptr %to.addr, align 8, !dbg !835
  store i8 %1, ptr %2, align 1, !dbg !836
  %tobool = icmp ne i8 %1, 0, !dbg !837
  br i1 %tobool, label %for.body, label %for.end, !dbg !837

for.body:                                         ; preds = %for.cond
  %3 = load ptr, ptr %from.addr, align 8, !dbg !838
  %incdec.ptr = getelementptr i8, ptr %3, i32 1, !dbg !838
  store ptr %incdec.ptr, ptr %from.addr, align 8, !dbg !838
  br label %for.inc, !dbg !839

for.inc:                                          ; preds = %for.body
  %4 = load ptr, ptr %to.addr, align 8, !dbg !840
  %incdec.ptr1 = getelementptr i8, ptr %4, i32 1, !dbg !840
  store ptr %incdec.ptr1, ptr %to.addr, align 8, !dbg !840
  br label %for.cond, !dbg !841, !llvm.loop !842

for.end:                                          ; preds = %for.cond
  %5 = load ptr, ptr %to.addr, align 8, !dbg !844
  ret ptr %5, !dbg !845
}

; Function Attrs: noinline nounwind optnone uwtable
define weak dso_local ptr @strncpy(ptr noalias noundef nonnull %to, ptr noalias noundef nonnull %from, i64 noundef %size) #3 !dbg !846 {
entry:
  %to.addr = alloca ptr, align 8
  %from.addr = alloca ptr, align 8
  %size.addr = alloca i64, align 8
  %k = alloca i64, align 8
  store ptr %to, ptr %to.addr, align 8
    #dbg_declare(ptr %to.addr, !849, !DIExpression(), !850)
  store ptr %from, ptr %from.addr, align 8
    #dbg_declare(ptr %from.addr, !851, !DIExpression(), !852)
  store i64 %size, ptr %size.addr, align 8
    #dbg_declare(ptr %size.addr, !853, !DIExpression(), !854)
    #dbg_declare(ptr %k, !855, !DIExpression(), !856)
  store i64 0, ptr %k, align 8, !dbg !856
  br label %for.cond, !dbg !857

for.cond:                                         ; preds = %for.inc, %entry
  %0 = load i64, ptr %k, align 8, !dbg !858
  %1 = load i64, ptr %size.addr, align 8, !dbg !861
  %cmp = icmp ult i64 %0, %1, !dbg !862
  br i1 %cmp, label %land.rhs, label %land.end, !dbg !863

land.rhs:                                         ; preds = %for.cond
  %2 = load ptr, ptr %from.addr, align 8, !dbg !864
  %3 = load i64, ptr %k, align 8, !dbg !865
  %arrayidx = getelementptr i8, ptr %2, i64 %3, !dbg !864
  %4 = load i8, ptr %arrayidx, align 1, !dbg !864
  %conv = sext i8 %4 to i32, !dbg !864
  %tobool = icmp ne i32 %conv, 0, !dbg !863
  br label %land.end

land.end:                                         ; preds = %land.rhs, %for.cond
  %5 = phi i1 [ false, %for.cond ], [ %tobool, %land.rhs ], !dbg !866
  br i1 %5, label %for.body, label %for.end, !dbg !867

for.body:                                         ; preds = %land.end
  %6 = load ptr, ptr %from.addr, align 8, !dbg !868
  %7 = load i64, ptr %k, align 8, !dbg !869
  %arrayidx1 = getelementptr i8, ptr %6, i64 %7, !dbg !868
  %8 = load i8, ptr %arrayidx1, align 1, !dbg !868
  %9 = load ptr, ptr %to.addr, align 8, !dbg !870
  %10 = load i64, ptr %k, align 8, !dbg !871
  %arrayidx2 = getelementptr i8, ptr %9, i64 %10, !dbg !870
  store i8 %8, ptr %arrayidx2, align 1, !dbg !872
  br label %for.inc, !dbg !870

for.inc:                                          ; preds = %for.body
  %11 = load i64, ptr %k, align 8, !dbg !873
  %inc = add i64 %11, 1, !dbg !873
  store i64 %inc, ptr %k, align 8, !dbg !873
  br label %for.cond, !dbg !874, !llvm.loop !875

for.end:                                          ; preds = %land.end
  br label %for.cond3, !dbg !877

for.cond3:                                        ; preds = %for.inc8, %for.end
  %12 = load i64, ptr %k, align 8, !dbg !878
  %13 = load i64, ptr %size.addr, align 8, !dbg !881
  %cmp4 = icmp ult i64 %12, %13, !dbg !882
  br i1 %cmp4, label %for.body6, label %for.end10, !dbg !883

for.body6:                                        ; preds = %for.cond3
  %14 = load ptr, ptr %to.addr, align 8, !dbg !884
  %15 = load i64, ptr %k, align 8, !dbg !885
  %arrayidx7 = getelementptr i8, ptr %14, i64 %15, !dbg !884
  store i8 0, ptr %arrayidx7, align 1, !dbg !886
  br label %for.inc8, !dbg !884

for.inc8:                                         ; preds = %for.body6
  %16 = load i64, ptr %k, align 8, !dbg !887
  %inc9 = add i64 %16, 1, !dbg !887
  store i64 %inc9, ptr %k, align 8, !dbg !887
  br label %for.cond3, !dbg !888, !llvm.loop !889

for.end10:                                        ; preds = %for.cond3
  %17 = load ptr, ptr %to.addr, align 8, !dbg !891
  ret ptr %17, !dbg !892
}

; Function Attrs: noinline nounwind optnone uwtable
define weak dso_local ptr @stpncpy(ptr noalias noundef nonnull %to, ptr noalias noundef nonnull %from, i64 noundef %size) #3 !dbg !893 {
entry:
  %to.addr = alloca ptr, align 8
  %from.addr = alloca ptr, align 8
  %size.addr = alloca i64, align 8
  %length = alloca i64, align 8
  %k = alloca i64, align 8
  store ptr %to, ptr %to.addr, align 8
    #dbg_declare(ptr %to.addr, !894, !DIExpression(), !895)
  store ptr %from, ptr %from.addr, align 8
    #dbg_declare(ptr %from.addr, !896, !DIExpression(), !897)
  store i64 %size, ptr %size.addr, align 8
    #dbg_declare(ptr %size.addr, !898, !DIExpression(), !899)
    #dbg_declare(ptr %length, !900, !DIExpression(), !901)
  store i64 0, ptr %length, align 8, !dbg !901
  br label %for.cond, !dbg !902

for.cond:                                         ; preds = %for.inc, %entry
  %0 = load i64, ptr %length, align 8, !dbg !903
  %1 = load i64, ptr %size.addr, align 8, !dbg !906
  %cmp = icmp ult i64 %0, %1, !dbg !907
  br i1 %cmp, label %land.rhs, label %land.end, !dbg !908

land.rhs:                                         ; preds = %for.cond
  %2 = load ptr, ptr %from.addr, align 8, !dbg !909
  %3 = load i64, ptr %length, align 8, !dbg !910
  %arrayidx = getelementptr i8, ptr %2, i64 %3, !dbg !909
  %4 = load i8, ptr %arrayidx, align 1, !dbg !909
  %conv = sext i8 %4 to i32, !dbg !909
  %tobool = icmp ne i32 %conv, 0, !dbg !908
  br label %land.end

land.end:                                         ; preds = %land.rhs, %for.cond
  %5 = phi i1 [ false, %for.cond ], [ %tobool, %land.rhs ], !dbg !911
  br i1 %5, label %for.body, label %for.end, !dbg !912

for.body:                                         ; preds = %land.end
  %6 = load ptr, ptr %from.addr, align 8, !dbg !913
  %7 = load i64, ptr %length, align 8, !dbg !914
  %arrayidx1 = getelementptr i8, ptr %6, i64 %7, !dbg !913
  %8 = load i8, ptr %arrayidx1, align 1, !dbg !913
  %9 = load ptr, ptr %to.addr, align 8, !dbg !915
  %10 = load i64, ptr %length, align 8, !dbg !916
  %arrayidx2 = getelementptr i8, ptr %9, i64 %10, !dbg !915
  store i8 %8, ptr %arrayidx2, align 1, !dbg !917
  br label %for.inc, !dbg !915

for.inc:                                          ; preds = %for.body
  %11 = load i64, ptr %length, align 8, !dbg !918
  %inc = add i64 %11, 1, !dbg !918
  store i64 %inc, ptr %length, align 8, !dbg !918
  br label %for.cond, !dbg !919, !llvm.loop !920

for.end:                                          ; preds = %land.end
    #dbg_declare(ptr %k, !922, !DIExpression(), !924)
  %12 = load i64, ptr %length, align 8, !dbg !925
  store i64 %12, ptr %k, align 8, !dbg !924
  br label %for.cond3, !dbg !926

for.cond3:                                        ; preds = %for.inc8, %for.end
  %13 = load i64, ptr %k, align 8, !dbg !927
  %14 = load i64, ptr %size.addr, align 8, !dbg !929
  %cmp4 = icmp ult i64 %13, %14, !dbg !930
  br i1 %cmp4, label %for.body6, label %for.end10, !dbg !931

for.body6:                                        ; preds = %for.cond3
  %15 = load ptr, ptr %to.addr, align 8, !dbg !932
  %16 = load i64, ptr %k, align 8, !dbg !933
  %arrayidx7 = getelementptr i8, ptr %15, i64 %16, !dbg !932
  store i8 0, ptr %arrayidx7, align 1, !dbg !934
  br label %for.inc8, !dbg !932

for.inc8:                                         ; preds = %for.body6
  %17 = load i64, ptr %k, align 8, !dbg !935
  %inc9 = add i64 %17, 1, !dbg !935
  store i64 %inc9, ptr %k, align 8, !dbg !935
  br label %for.cond3, !dbg !936, !llvm.loop !937

for.end10:                                        ; preds = %for.cond3
  %18 = load ptr, ptr %to.addr, align 8, !dbg !939
  %19 = load i64, ptr %length, align 8, !dbg !940
  %add.ptr = getelementptr i8, ptr %18, i64 %19, !dbg !941
  ret ptr %add.ptr, !dbg !942
}

; Function Attrs: noinline nounwind optnone uwtable
define weak dso_local ptr @strcat(ptr noalias noundef nonnull %to, ptr noalias noundef nonnull %from) #3 !dbg !943 {
entry:
  %to.addr = alloca ptr, align 8
  %from.addr = alloca ptr, align 8
  %end = alloca ptr, align 8
  store ptr %to, ptr %to.addr, align 8
    #dbg_declare(ptr %to.addr, !944, !DIExpression(), !945)
  store ptr %from, ptr %from.addr, align 8
    #dbg_declare(ptr %from.addr, !946, !DIExpression(), !947)
    #dbg_declare(ptr %end, !948, !DIExpression(), !949)
  %0 = load ptr, ptr %to.addr, align 8, !dbg !950
  store ptr %0, ptr %end, align 8, !dbg !949
  br label %while.cond, !dbg !951

while.cond:                                       ; preds = %while.body, %entry
  %1 = load ptr, ptr %end, align 8, !dbg !952
  %2 = load i8, ptr %1, align 1, !dbg !953
  %tobool = icmp ne i8 %2, 0, !dbg !951
  br i1 %tobool, label %while.body, label %while.end, !dbg !951

while.body:                                       ; preds = %while.cond
  %3 = load ptr, ptr %end, align 8, !dbg !954
  %incdec.ptr = getelementptr i8, ptr %3, i32 1, !dbg !954
  store ptr %incdec.ptr, ptr %end, align 8, !dbg !954
  br label %while.cond, !dbg !951, !llvm.loop !955

while.end:                                        ; preds = %while.cond
  br label %for.cond, !dbg !956

for.cond:                                         ; preds = %for.inc, %while.end
  %4 = load ptr, ptr %from.addr, align 8, !dbg !957
  %5 = load i8, ptr %4, align 1, !dbg !960
  %6 = load ptr, ptr %end, align 8, !dbg !961
  store i8 %5, ptr %6, align 1, !dbg !962
  %tobool1 = icmp ne i8 %5, 0, !dbg !963
  br i1 %tobool1, label %for.body, label %for.end, !dbg !963

for.body:                                         ; preds = %for.cond
  %7 = load ptr, ptr %from.addr, align 8, !dbg !964
  %incdec.ptr2 = getelementptr i8, ptr %7, i32 1, !dbg !964
  store ptr %incdec.ptr2, ptr %from.addr, align 8, !dbg !964
  br label %for.inc, !dbg !965

for.inc:                                          ; preds = %for.body
  %8 = load ptr, ptr %end, align 8, !dbg !966
  %incdec.ptr3 = getelementptr i8, ptr %8, i32 1, !dbg !966
  store ptr %incdec.ptr3, ptr %end, align 8, !dbg !966
  br label %for.cond, !dbg !967, !llvm.loop !968

for.end:                                          ; preds = %for.cond
  %9 = load ptr, ptr %to.addr, align 8, !dbg !970
  ret ptr %9, !dbg !971
}

; Function Attrs: noinline nounwind optnone uwtable
define weak dso_local ptr @strncat(ptr noalias noundef nonnull %to, ptr noalias noundef nonnull %from, i64 noundef %most) #3 !dbg !972 {
entry:
  %to.addr = alloca ptr, align 8
  %from.addr = alloca ptr, align 8
  %most.addr = alloca i64, align 8
  %end = alloca ptr, align 8
  store ptr %to, ptr %to.addr, align 8
    #dbg_declare(ptr %to.addr, !973, !DIExpression(), !974)
  store ptr %from, ptr %from.addr, align 8
    #dbg_declare(ptr %from.addr, !975, !DIExpression(), !976)
  store i64 %most, ptr %most.addr, align 8
    #dbg_declare(ptr %most.addr, !977, !DIExpression(), !978)
    #dbg_declare(ptr %end, !979, !DIExpression(), !980)
  %0 = load ptr, ptr %to.addr, align 8, !dbg !981
  store ptr %0, ptr %end, align 8, !dbg !980
  br label %while.cond, !dbg !982

while.cond:                                       ; preds = %while.body, %entry
  %1 = load ptr, ptr %end, align 8, !dbg !983
  %2 = load i8, ptr %1, align 1, !dbg !984
  %tobool = icmp ne i8 %2, 0, !dbg !982
  br i1 %tobool, label %while.body, label %while.end, !dbg !982

while.body:                                       ; preds = %while.cond
  %3 = load ptr, ptr %end, align 8, !dbg !985
  %incdec.ptr = getelementptr i8, ptr %3, i32 1, !dbg !985
  store ptr %incdec.ptr, ptr %end, align 8, !dbg !985
  br label %while.cond, !dbg !982, !llvm.loop !986

while.end:                                        ; preds = %while.cond
  br label %for.cond, !dbg !987

for.cond:                                         ; preds = %for.inc, %while.end
  %4 = load i64, ptr %most.addr, align 8, !dbg !988
  %cmp = icmp ugt i64 %4, 0, !dbg !991
  br i1 %cmp, label %land.rhs, label %land.end, !dbg !992

land.rhs:                                         ; preds = %for.cond
  %5 = load ptr, ptr %from.addr, align 8, !dbg !993
  %6 = load i8, ptr %5, align 1, !dbg !994
  %conv = sext i8 %6 to i32, !dbg !994
  %tobool1 = icmp ne i32 %conv, 0, !dbg !992
  br label %land.end

land.end:                                         ; preds = %land.rhs, %for.cond
  %7 = phi i1 [ false, %for.cond ], [ %tobool1, %land.rhs ], !dbg !995
  br i1 %7, label %for.body, label %for.end, !dbg !996

for.body:                                         ; preds = %land.end
  %8 = load ptr, ptr %from.addr, align 8, !dbg !997
  %incdec.ptr2 = getelementptr i8, ptr %8, i32 1, !dbg !997
  store ptr %incdec.ptr2, ptr %from.addr, align 8, !dbg !997
  %9 = load i8, ptr %8, align 1, !dbg !998
  %10 = load ptr, ptr %end, align 8, !dbg !999
  %incdec.ptr3 = getelementptr i8, ptr %10, i32 1, !dbg !999
  store ptr %incdec.ptr3, ptr %end, align 8, !dbg !999
  store i8 %9, ptr %10, align 1, !dbg !1000
  br label %for.inc, !dbg !1001

for.inc:                                          ; preds = %for.body
  %11 = load i64, ptr %most.addr, align 8, !dbg !1002
  %dec = add i64 %11, -1, !dbg !1002
  store i64 %dec, ptr %most.addr, align 8, !dbg !1002
  br label %for.cond, !dbg !1003, !llvm.loop !1004

for.end:                                          ; preds = %land.end
  %12 = load ptr, ptr %end, align 8, !dbg !1006
  store i8 0, ptr %12, align 1, !dbg !1007
  %13 = load ptr, ptr %to.addr, align 8, !dbg !1008
  ret ptr %13, !dbg !1009
}

; Function Attrs: noinline nounwind optnone uwtable
define weak dso_local ptr @mempcpy(ptr noalias noundef nonnull %to, ptr noalias noundef nonnull %from, i64 noundef %size) #3 !dbg !1010 {
entry:
  %to.addr = alloca ptr, align 8
  %from.addr = alloca ptr, align 8
  %size.addr = alloca i64, align 8
  store ptr %to, ptr %to.addr, align 8
    #dbg_declare(ptr %to.addr, !1017, !DIExpression(), !1018)
  store ptr %from, ptr %from.addr, align 8
    #dbg_declare(ptr %from.addr, !1019, !DIExpression(), !1020)
  store i64 %size, ptr %size.addr, align 8
    #dbg_declare(ptr %size.addr, !1021, !DIExpression(), !1022)
  %0 = load ptr, ptr %to.addr, align 8, !dbg !1023
  %1 = load ptr, ptr %from.addr, align 8, !dbg !1024
  %2 = load i64, ptr %size.addr, align 8, !dbg !1025
  %call = call ptr @memcpy(ptr noundef %0, ptr noundef %1, i64 noundef %2) #11, !dbg !1026
  %3 = load ptr, ptr %to.addr, align 8, !dbg !1027
  %4 = load i64, ptr %size.addr, align 8, !dbg !1028
  %add.ptr = getelementptr i8, ptr %3, i64 %4, !dbg !1029
  ret ptr %add.ptr, !dbg !1030
}

; Function Attrs: nounwind
declare dso_local ptr @memcpy(ptr noundef, ptr noundef, i64 noundef) #7

; Function Attrs: noinline nounwind optnone uwtable
define weak dso_local ptr @memccpy(ptr noalias noundef nonnull %to, ptr noalias noundef nonnull %from, i32 noundef %last, i64 noundef %size) #3 !dbg !1031 {
entry:
  %retval = alloca ptr, align 8
  %to.addr = alloca ptr, align 8
  %from.addr = alloca ptr, align 8
  %last.addr = alloca i32, align 4
  %size.addr = alloca i64, align 8
  %target = alloca ptr, align 8
  %source = alloca ptr, align 8
  store ptr %to, ptr %to.addr, align 8
    #dbg_declare(ptr %to.addr, !1034, !DIExpression(), !1035)
  store ptr %from, ptr %from.addr, align 8
    #dbg_declare(ptr %from.addr, !1036, !DIExpression(), !1037)
  store i32 %last, ptr %last.addr, align 4
    #dbg_declare(ptr %last.addr, !1038, !DIExpression(), !1039)
  store i64 %size, ptr %size.addr, align 8
    #dbg_declare(ptr %size.addr, !1040, !DIExpression(), !1041)
    #dbg_declare(ptr %target, !1042, !DIExpression(), !1043)
  %0 = load ptr, ptr %to.addr, align 8, !dbg !1044
  store ptr %0, ptr %target, align 8, !dbg !1043
    #dbg_declare(ptr %source, !1045, !DIExpression(), !1046)
  %1 = load ptr, ptr %from.addr, align 8, !dbg !1047
  store ptr %1, ptr %source, align 8, !dbg !1046
  br label %for.cond, !dbg !1048

for.cond:                                         ; preds = %for.inc, %entry
  %2 = load i64, ptr %size.addr, align 8, !dbg !1049
  %cmp = icmp ugt i64 %2, 0, !dbg !1052
  br i1 %cmp, label %for.body, label %for.end, !dbg !1053

for.body:                                         ; preds = %for.cond
  %3 = load ptr, ptr %source, align 8, !dbg !1054
  %incdec.ptr = getelementptr i8, ptr %3, i32 1, !dbg !1054
  store ptr %incdec.ptr, ptr %source, align 8, !dbg !1054
  %4 = load i8, ptr %3, align 1, !dbg !1056
  %5 = load ptr, ptr %target, align 8, !dbg !1057
  %incdec.ptr1 = getelementptr i8, ptr %5, i32 1, !dbg !1057
  store ptr %incdec.ptr1, ptr %target, align 8, !dbg !1057
  store i8 %4, ptr %5, align 1, !dbg !1058
  %conv = sext i8 %4 to i32, !dbg !1059
  %6 = load i32, ptr %last.addr, align 4, !dbg !1060
  %conv2 = trunc i32 %6 to i8, !dbg !1061
  %conv3 = sext i8 %conv2 to i32, !dbg !1061
  %cmp4 = icmp eq i32 %conv, %conv3, !dbg !1062
  br i1 %cmp4, label %if.then, label %if.end, !dbg !1063

if.then:                                          ; preds = %for.body
  %7 = load ptr, ptr %target, align 8, !dbg !1064
  store ptr %7, ptr %retval, align 8, !dbg !1065
  br label %return, !dbg !1065

if.end:                                           ; preds = %for.body
  br label %for.inc, !dbg !1060

for.inc:                                          ; preds = %if.end
  %8 = load i64, ptr %size.addr, align 8, !dbg !1066
  %dec = add i64 %8, -1, !dbg !1066
  store i64 %dec, ptr %size.addr, align 8, !dbg !1066
  br label %for.cond, !dbg !1067, !llvm.loop !1068

for.end:                                          ; preds = %for.cond
  store ptr null, ptr %retval, align 8, !dbg !1070
  br label %return, !dbg !1070

return:                                           ; preds = %for.end, %if.then
  %9 = load ptr, ptr %retval, align 8, !dbg !1071
  ret ptr %9, !dbg !1071
}

; Function Attrs: noinline nounwind optnone uwtable
define weak dso_local noalias ptr @strdup(ptr noundef nonnull %text) #3 !dbg !1072 {
entry:
  %text.addr = alloca ptr, align 8
  %length = alloca i64, align 8
  %copy = alloca ptr, align 8
  store ptr %text, ptr %text.addr, align 8
    #dbg_declare(ptr %text.addr, !1075, !DIExpression(), !1076)
    #dbg_declare(ptr %length, !1077, !DIExpression(), !1078)
  store i64 0, ptr %length, align 8, !dbg !1078
  br label %while.cond, !dbg !1079

while.cond:                                       ; preds = %while.body, %entry
  %0 = load ptr, ptr %text.addr, align 8, !dbg !1080
  %1 = load i64, ptr %length, align 8, !dbg !1081
  %arrayidx = getelementptr i8, ptr %0, i64 %1, !dbg !1080
  %2 = load i8, ptr %arrayidx, align 1, !dbg !1080
  %tobool = icmp ne i8 %2, 0, !dbg !1079
  br i1 %tobool, label %while.body, label %while.end, !dbg !1079

while.body:                                       ; preds = %while.cond
  %3 = load i64, ptr %length, align 8, !dbg !1082
  %inc = add i64 %3, 1, !dbg !1082
  store i64 %inc, ptr %length, align 8, !dbg !1082
  br label %while.cond, !dbg !1079, !llvm.loop !1083

while.end:                                        ; preds = %while.cond
    #dbg_declare(ptr %copy, !1084, !DIExpression(), !1085)
  %4 = load i64, ptr %length, align 8, !dbg !1086
  %add = add i64 %4, 1, !dbg !1087
  %call = call noalias ptr @malloc(i64 noundef %add) #11, !dbg !1088
  store ptr %call, ptr %copy, align 8, !dbg !1085
  %5 = load ptr, ptr %copy, align 8, !dbg !1089
  %tobool1 = icmp ne ptr %5, null, !dbg !1089
  br i1 %tobool1, label %if.then, label %if.end, !dbg !1091

if.then:                                          ; preds = %while.end
  %6 = load ptr, ptr %copy, align 8, !dbg !1092
  %7 = load ptr, ptr %text.addr, align 8, !dbg !1093
  %8 = load i64, ptr %length, align 8, !dbg !1094
  %add2 = add i64 %8, 1, !dbg !1095
  %call3 = call ptr @memcpy(ptr noundef %6, ptr noundef %7, i64 noundef %add2) #11, !dbg !1096
  br label %if.end, !dbg !1096

if.end:                                           ; preds = %if.then, %while.end
  %9 = load ptr, ptr %copy, align 8, !dbg !1097
  ret ptr %9, !dbg !1098
}

; Function Attrs: nounwind
declare dso_local noalias ptr @malloc(i64 noundef) #7

; Function Attrs: noinline nounwind optnone uwtable
define weak dso_local noalias ptr @strndup(ptr noundef nonnull %text, i64 noundef %most) #3 !dbg !1099 {
entry:
  %text.addr = alloca ptr, align 8
  %most.addr = alloca i64, align 8
  %length = alloca i64, align 8
  %copy = alloca ptr, align 8
  store ptr %text, ptr %text.addr, align 8
    #dbg_declare(ptr %text.addr, !1102, !DIExpression(), !1103)
  store i64 %most, ptr %most.addr, align 8
    #dbg_declare(ptr %most.addr, !1104, !DIExpression(), !1105)
    #dbg_declare(ptr %length, !1106, !DIExpression(), !1107)
  store i64 0, ptr %length, align 8, !dbg !1107
  br label %while.cond, !dbg !1108

while.cond:                                       ; preds = %while.body, %entry
  %0 = load i64, ptr %length, align 8, !dbg !1109
  %1 = load i64, ptr %most.addr, align 8, !dbg !1110
  %cmp = icmp ult i64 %0, %1, !dbg !1111
  br i1 %cmp, label %land.rhs, label %land.end, !dbg !1112

land.rhs:                                         ; preds = %while.cond
  %2 = load ptr, ptr %text.addr, align 8, !dbg !1113
  %3 = load i64, ptr %length, align 8, !dbg !1114
  %arrayidx = getelementptr i8, ptr %2, i64 %3, !dbg !1113
  %4 = load i8, ptr %arrayidx, align 1, !dbg !1113
  %conv = sext i8 %4 to i32, !dbg !1113
  %tobool = icmp ne i32 %conv, 0, !dbg !1112
  br label %land.end

land.end:                                         ; preds = %land.rhs, %while.cond
  %5 = phi i1 [ false, %while.cond ], [ %tobool, %land.rhs ], !dbg !1115
  br i1 %5, label %while.body, label %while.end, !dbg !1108

while.body:                                       ; preds = %land.end
  %6 = load i64, ptr %length, align 8, !dbg !1116
  %inc = add i64 %6, 1, !dbg !1116
  store i64 %inc, ptr %length, align 8, !dbg !1116
  br label %while.cond, !dbg !1108, !llvm.loop !1117

while.end:                                        ; preds = %land.end
    #dbg_declare(ptr %copy, !1118, !DIExpression(), !1119)
  %7 = load i64, ptr %length, align 8, !dbg !1120
  %add = add i64 %7, 1, !dbg !1121
  %call = call noalias ptr @malloc(i64 noundef %add) #11, !dbg !1122
  store ptr %call, ptr %copy, align 8, !dbg !1119
  %8 = load ptr, ptr %copy, align 8, !dbg !1123
  %tobool1 = icmp ne ptr %8, null, !dbg !1123
  br i1 %tobool1, label %if.then, label %if.end, !dbg !1125

if.then:                                          ; preds = %while.end
  %9 = load ptr, ptr %copy, align 8, !dbg !1126
  %10 = load ptr, ptr %text.addr, align 8, !dbg !1128
  %11 = load i64, ptr %length, align 8, !dbg !1129
  %call2 = call ptr @memcpy(ptr noundef %9, ptr noundef %10, i64 noundef %11) #11, !dbg !1130
  %12 = load ptr, ptr %copy, align 8, !dbg !1131
  %13 = load i64, ptr %length, align 8, !dbg !1132
  %arrayidx3 = getelementptr i8, ptr %12, i64 %13, !dbg !1131
  store i8 0, ptr %arrayidx3, align 1, !dbg !1133
  br label %if.end, !dbg !1134

if.end:                                           ; preds = %if.then, %while.end
  %14 = load ptr, ptr %copy, align 8, !dbg !1135
  ret ptr %14, !dbg !1136
}

; Function Attrs: noinline nounwind optnone willreturn memory(read) uwtable
define weak dso_local i32 @strcmp(ptr noundef nonnull %one, ptr noundef nonnull %two) #6 !dbg !1137 {
entry:
  %one.addr = alloca ptr, align 8
  %two.addr = alloca ptr, align 8
  store ptr %one, ptr %one.addr, align 8
    #dbg_declare(ptr %one.addr, !1140, !DIExpression(), !1141)
  store ptr %two, ptr %two.addr, align 8
    #dbg_declare(ptr %two.addr, !1142, !DIExpression(), !1143)
  br label %for.cond, !dbg !1144

for.cond:                                         ; preds = %for.inc, %entry
  %0 = load ptr, ptr %one.addr, align 8, !dbg !1145
  %1 = load i8, ptr %0, align 1, !dbg !1148
  %conv = sext i8 %1 to i32, !dbg !1148
  %tobool = icmp ne i32 %conv, 0, !dbg !1148
  br i1 %tobool, label %land.rhs, label %land.end, !dbg !1149

land.rhs:                                         ; preds = %for.cond
  %2 = load ptr, ptr %one.addr, align 8, !dbg !1150
  %3 = load i8, ptr %2, align 1, !dbg !1151
  %conv1 = sext i8 %3 to i32, !dbg !1151
  %4 = load ptr, ptr %two.addr, align 8, !dbg !1152
  %5 = load i8, ptr %4, align 1, !dbg !1153
  %conv2 = sext i8 %5 to i32, !dbg !1153
  %cmp = icmp eq i32 %conv1, %conv2, !dbg !1154
  br label %land.end

land.end:                                         ; preds = %land.rhs, %for.cond
  %6 = phi i1 [ false, %for.cond ], [ %cmp, %land.rhs ], !dbg !1155
  br i1 %6, label %for.body, label %for.end, !dbg !1156

for.body:                                         ; preds = %land.end
  %7 = load ptr, ptr %two.addr, align 8, !dbg !1157
  %incdec.ptr = getelementptr i8, ptr %7, i32 1, !dbg !1157
  store ptr %incdec.ptr, ptr %two.addr, align 8, !dbg !1157
  br label %for.inc, !dbg !1158

for.inc:                                          ; preds = %for.body
  %8 = load ptr, ptr %one.addr, align 8, !dbg !1159
  %incdec.ptr4 = getelementptr i8, ptr %8, i32 1, !dbg !1159
  store ptr %incdec.ptr4, ptr %one.addr, align 8, !dbg !1159
  br label %for.cond, !dbg !1160, !llvm.loop !1161

for.end:                                          ; preds = %land.end
  %9 = load ptr, ptr %one.addr, align 8, !dbg !1163
  %10 = load i8, ptr %9, align 1, !dbg !1164
  %conv5 = zext i8 %10 to i32, !dbg !1165
  %11 = load ptr, ptr %two.addr, align 8, !dbg !1166
  %12 = load i8, ptr %11, align 1, !dbg !1167
  %conv6 = zext i8 %12 to i32, !dbg !1168
  %sub = sub i32 %conv5, %conv6, !dbg !1169
  ret i32 %sub, !dbg !1170
}

; Function Attrs: noinline nounwind optnone willreturn memory(read) uwtable
define weak dso_local i32 @strncmp(ptr noundef nonnull %one, ptr noundef nonnull %two, i64 noundef %most) #6 !dbg !1171 {
entry:
  %retval = alloca i32, align 4
  %one.addr = alloca ptr, align 8
  %two.addr = alloca ptr, align 8
  %most.addr = alloca i64, align 8
  store ptr %one, ptr %one.addr, align 8
    #dbg_declare(ptr %one.addr, !1174, !DIExpression(), !1175)
  store ptr %two, ptr %two.addr, align 8
    #dbg_declare(ptr %two.addr, !1176, !DIExpression(), !1177)
  store i64 %most, ptr %most.addr, align 8
    #dbg_declare(ptr %most.addr, !1178, !DIExpression(), !1179)
  br label %for.cond, !dbg !1180

for.cond:                                         ; preds = %for.inc, %entry
  %0 = load i64, ptr %most.addr, align 8, !dbg !1181
  %cmp = icmp ugt i64 %0, 0, !dbg !1184
  br i1 %cmp, label %for.body, label %for.end, !dbg !1185

for.body:                                         ; preds = %for.cond
  %1 = load ptr, ptr %one.addr, align 8, !dbg !1186
  %2 = load i8, ptr %1, align 1, !dbg !1188
  %tobool = icmp ne i8 %2, 0, !dbg !1188
  br i1 %tobool, label %lor.lhs.false, label %if.then, !dbg !1189

lor.lhs.false:                                    ; preds = %for.body
  %3 = load ptr, ptr %one.addr, align 8, !dbg !1190
  %4 = load i8, ptr %3, align 1, !dbg !1191
  %conv = sext i8 %4 to i32, !dbg !1191
  %5 = load ptr, ptr %two.addr, align 8, !dbg !1192
  %6 = load i8, ptr %5, align 1, !dbg !1193
  %conv1 = sext i8 %6 to i32, !dbg !1193
  %cmp2 = icmp ne i32 %conv, %conv1, !dbg !1194
  br i1 %cmp2, label %if.then, label %if.end, !dbg !1195

if.then:                                          ; preds = %lor.lhs.false, %for.body
  %7 = load ptr, ptr %one.addr, align 8, !dbg !1196
  %8 = load i8, ptr %7, align 1, !dbg !1197
  %conv4 = zext i8 %8 to i32, !dbg !1198
  %9 = load ptr, ptr %two.addr, align 8, !dbg !1199
  %10 = load i8, ptr %9, align 1, !dbg !1200
  %conv5 = zext i8 %10 to i32, !dbg !1201
  %sub = sub i32 %conv4, %conv5, !dbg !1202
  store i32 %sub, ptr %retval, align 4, !dbg !1203
  br label %return, !dbg !1203

if.end:                                           ; preds = %lor.lhs.false
  br label %for.inc, !dbg !1192

for.inc:                                          ; preds = %if.end
  %11 = load i64, ptr %most.addr, align 8, !dbg !1204
  %dec = add i64 %11, -1, !dbg !1204
  store i64 %dec, ptr %most.addr, align 8, !dbg !1204
  %12 = load ptr, ptr %one.addr, align 8, !dbg !1205
  %incdec.ptr = getelementptr i8, ptr %12, i32 1, !dbg !1205
  store ptr %incdec.ptr, ptr %one.addr, align 8, !dbg !1205
  %13 = load ptr, ptr %two.addr, align 8, !dbg !1206
  %incdec.ptr6 = getelementptr i8, ptr %13, i32 1, !dbg !1206
  store ptr %incdec.ptr6, ptr %two.addr, align 8, !dbg !1206
  br label %for.cond, !dbg !1207, !llvm.loop !1208

for.end:                                          ; preds = %for.cond
  store i32 0, ptr %retval, align 4, !dbg !1210
  br label %return, !dbg !1210

return:                                           ; preds = %for.end, %if.then
  %14 = load i32, ptr %retval, align 4, !dbg !1211
  ret i32 %14, !dbg !1211
}

; Function Attrs: noinline nounwind optnone willreturn memory(read) uwtable
define weak dso_local i64 @strnlen(ptr noundef nonnull %text, i64 noundef %most) #6 !dbg !1212 {
entry:
  %text.addr = alloca ptr, align 8
  %most.addr = alloca i64, align 8
  %length = alloca i64, align 8
  store ptr %text, ptr %text.addr, align 8
    #dbg_declare(ptr %text.addr, !1215, !DIExpression(), !1216)
  store i64 %most, ptr %most.addr, align 8
    #dbg_declare(ptr %most.addr, !1217, !DIExpression(), !1218)
    #dbg_declare(ptr %length, !1219, !DIExpression(), !1220)
  store i64 0, ptr %length, align 8, !dbg !1220
  br label %while.cond, !dbg !1221

while.cond:                                       ; preds = %while.body, %entry
  %0 = load i64, ptr %length, align 8, !dbg !1222
  %1 = load i64, ptr %most.addr, align 8, !dbg !1223
  %cmp = icmp ult i64 %0, %1, !dbg !1224
  br i1 %cmp, label %land.rhs, label %land.end, !dbg !1225

land.rhs:                                         ; preds = %while.cond
  %2 = load ptr, ptr %text.addr, align 8, !dbg !1226
  %3 = load i64, ptr %length, align 8, !dbg !1227
  %arrayidx = getelementptr i8, ptr %2, i64 %3, !dbg !1226
  %4 = load i8, ptr %arrayidx, align 1, !dbg !1226
  %conv = sext i8 %4 to i32, !dbg !1226
  %tobool = icmp ne i32 %conv, 0, !dbg !1225
  br label %land.end

land.end:                                         ; preds = %land.rhs, %while.cond
  %5 = phi i1 [ false, %while.cond ], [ %tobool, %land.rhs ], !dbg !1228
  br i1 %5, label %while.body, label %while.end, !dbg !1221

while.body:                                       ; preds = %land.end
  %6 = load i64, ptr %length, align 8, !dbg !1229
  %inc = add i64 %6, 1, !dbg !1229
  store i64 %inc, ptr %length, align 8, !dbg !1229
  br label %while.cond, !dbg !1221, !llvm.loop !1230

while.end:                                        ; preds = %land.end
  %7 = load i64, ptr %length, align 8, !dbg !1231
  ret i64 %7, !dbg !1232
}

; Function Attrs: noinline nounwind optnone willreturn memory(read) uwtable
define weak dso_local ptr @memchr(ptr noundef nonnull %bytes, i32 noundef %wanted, i64 noundef %size) #6 !dbg !1233 {
entry:
  %retval = alloca ptr, align 8
  %bytes.addr = alloca ptr, align 8
  %wanted.addr = alloca i32, align 4
  %size.addr = alloca i64, align 8
  %at = alloca ptr, align 8
  store ptr %bytes, ptr %bytes.addr, align 8
    #dbg_declare(ptr %bytes.addr, !1236, !DIExpression(), !1237)
  store i32 %wanted, ptr %wanted.addr, align 4
    #dbg_declare(ptr %wanted.addr, !1238, !DIExpression(), !1239)
  store i64 %size, ptr %size.addr, align 8
    #dbg_declare(ptr %size.addr, !1240, !DIExpression(), !1241)
    #dbg_declare(ptr %at, !1242, !DIExpression(), !1243)
  %0 = load ptr, ptr %bytes.addr, align 8, !dbg !1244
  store ptr %0, ptr %at, align 8, !dbg !1243
  br label %for.cond, !dbg !1245

for.cond:                                         ; preds = %for.inc, %entry
  %1 = load i64, ptr %size.addr, align 8, !dbg !1246
  %cmp = icmp ugt i64 %1, 0, !dbg !1249
  br i1 %cmp, label %for.body, label %for.end, !dbg !1250

for.body:                                         ; preds = %for.cond
  %2 = load ptr, ptr %at, align 8, !dbg !1251
  %3 = load i8, ptr %2, align 1, !dbg !1253
  %conv = sext i8 %3 to i32, !dbg !1253
  %4 = load i32, ptr %wanted.addr, align 4, !dbg !1254
  %conv1 = trunc i32 %4 to i8, !dbg !1255
  %conv2 = sext i8 %conv1 to i32, !dbg !1255
  %cmp3 = icmp eq i32 %conv, %conv2, !dbg !1256
  br i1 %cmp3, label %if.then, label %if.end, !dbg !1257

if.then:                                          ; preds = %for.body
  %5 = load ptr, ptr %at, align 8, !dbg !1258
  store ptr %5, ptr %retval, align 8, !dbg !1259
  br label %return, !dbg !1259

if.end:                                           ; preds = %for.body
  br label %for.inc, !dbg !1254

for.inc:                                          ; preds = %if.end
  %6 = load i64, ptr %size.addr, align 8, !dbg !1260
  %dec = add i64 %6, -1, !dbg !1260
  store i64 %dec, ptr %size.addr, align 8, !dbg !1260
  %7 = load ptr, ptr %at, align 8, !dbg !1261
  %incdec.ptr = getelementptr i8, ptr %7, i32 1, !dbg !1261
  store ptr %incdec.ptr, ptr %at, align 8, !dbg !1261
  br label %for.cond, !dbg !1262, !llvm.loop !1263

for.end:                                          ; preds = %for.cond
  store ptr null, ptr %retval, align 8, !dbg !1265
  br label %return, !dbg !1265

return:                                           ; preds = %for.end, %if.then
  %8 = load ptr, ptr %retval, align 8, !dbg !1266
  ret ptr %8, !dbg !1266
}

; Function Attrs: noinline nounwind optnone willreturn memory(read) uwtable
define weak dso_local ptr @memrchr(ptr noundef nonnull %bytes, i32 noundef %wanted, i64 noundef %size) #6 !dbg !1267 {
entry:
  %retval = alloca ptr, align 8
  %bytes.addr = alloca ptr, align 8
  %wanted.addr = alloca i32, align 4
  %size.addr = alloca i64, align 8
  %start = alloca ptr, align 8
  store ptr %bytes, ptr %bytes.addr, align 8
    #dbg_declare(ptr %bytes.addr, !1268, !DIExpression(), !1269)
  store i32 %wanted, ptr %wanted.addr, align 4
    #dbg_declare(ptr %wanted.addr, !1270, !DIExpression(), !1271)
  store i64 %size, ptr %size.addr, align 8
    #dbg_declare(ptr %size.addr, !1272, !DIExpression(), !1273)
    #dbg_declare(ptr %start, !1274, !DIExpression(), !1275)
  %0 = load ptr, ptr %bytes.addr, align 8, !dbg !1276
  store ptr %0, ptr %start, align 8, !dbg !1275
  br label %while.cond, !dbg !1277

while.cond:                                       ; preds = %if.end, %entry
  %1 = load i64, ptr %size.addr, align 8, !dbg !1278
  %dec = add i64 %1, -1, !dbg !1278
  store i64 %dec, ptr %size.addr, align 8, !dbg !1278
  %cmp = icmp ugt i64 %1, 0, !dbg !1279
  br i1 %cmp, label %while.body, label %while.end, !dbg !1277

while.body:                                       ; preds = %while.cond
  %2 = load ptr, ptr %start, align 8, !dbg !1280
  %3 = load i64, ptr %size.addr, align 8, !dbg !1282
  %arrayidx = getelementptr i8, ptr %2, i64 %3, !dbg !1280
  %4 = load i8, ptr %arrayidx, align 1, !dbg !1280
  %conv = sext i8 %4 to i32, !dbg !1280
  %5 = load i32, ptr %wanted.addr, align 4, !dbg !1283
  %conv1 = trunc i32 %5 to i8, !dbg !1284
  %conv2 = sext i8 %conv1 to i32, !dbg !1284
  %cmp3 = icmp eq i32 %conv, %conv2, !dbg !1285
  br i1 %cmp3, label %if.then, label %if.end, !dbg !1286

if.then:                                          ; preds = %while.body
  %6 = load ptr, ptr %start, align 8, !dbg !1287
  %7 = load i64, ptr %size.addr, align 8, !dbg !1288
  %add.ptr = getelementptr i8, ptr %6, i64 %7, !dbg !1289
  store ptr %add.ptr, ptr %retval, align 8, !dbg !1290
  br label %return, !dbg !1290

if.end:                                           ; preds = %while.body
  br label %while.cond, !dbg !1277, !llvm.loop !1291

while.end:                                        ; preds = %while.cond
  store ptr null, ptr %retval, align 8, !dbg !1293
  br label %return, !dbg !1293

return:                                           ; preds = %while.end, %if.then
  %8 = load ptr, ptr %retval, align 8, !dbg !1294
  ret ptr %8, !dbg !1294
}

; Function Attrs: noinline nounwind optnone willreturn memory(read) uwtable
define weak dso_local ptr @memmem(ptr noundef nonnull %bytes, i64 noundef %size, ptr noundef nonnull %wanted, i64 noundef %length) #6 !dbg !1295 {
entry:
  %retval = alloca ptr, align 8
  %bytes.addr = alloca ptr, align 8
  %size.addr = alloca i64, align 8
  %wanted.addr = alloca ptr, align 8
  %length.addr = alloca i64, align 8
  %at = alloca ptr, align 8
  %pattern = alloca ptr, align 8
  %k = alloca i64, align 8
  store ptr %bytes, ptr %bytes.addr, align 8
    #dbg_declare(ptr %bytes.addr, !1298, !DIExpression(), !1299)
  store i64 %size, ptr %size.addr, align 8
    #dbg_declare(ptr %size.addr, !1300, !DIExpression(), !1301)
  store ptr %wanted, ptr %wanted.addr, align 8
    #dbg_declare(ptr %wanted.addr, !1302, !DIExpression(), !1303)
  store i64 %length, ptr %length.addr, align 8
    #dbg_declare(ptr %length.addr, !1304, !DIExpression(), !1305)
    #dbg_declare(ptr %at, !1306, !DIExpression(), !1307)
  %0 = load ptr, ptr %bytes.addr, align 8, !dbg !1308
  store ptr %0, ptr %at, align 8, !dbg !1307
    #dbg_declare(ptr %pattern, !1309, !DIExpression(), !1310)
  %1 = load ptr, ptr %wanted.addr, align 8, !dbg !1311
  store ptr %1, ptr %pattern, align 8, !dbg !1310
  br label %for.cond, !dbg !1312

for.cond:                                         ; preds = %for.inc, %entry
  %2 = load i64, ptr %size.addr, align 8, !dbg !1313
  %3 = load i64, ptr %length.addr, align 8, !dbg !1316
  %cmp = icmp uge i64 %2, %3, !dbg !1317
  br i1 %cmp, label %for.body, label %for.end, !dbg !1318

for.body:                                         ; preds = %for.cond
    #dbg_declare(ptr %k, !1319, !DIExpression(), !1321)
  store i64 0, ptr %k, align 8, !dbg !1321
  br label %while.cond, !dbg !1322

while.cond:                                       ; preds = %while.body, %for.body
  %4 = load i64, ptr %k, align 8, !dbg !1323
  %5 = load i64, ptr %length.addr, align 8, !dbg !1324
  %cmp1 = icmp ult i64 %4, %5, !dbg !1325
  br i1 %cmp1, label %land.rhs, label %land.end, !dbg !1326

land.rhs:                                         ; preds = %while.cond
  %6 = load ptr, ptr %at, align 8, !dbg !1327
  %7 = load i64, ptr %k, align 8, !dbg !1328
  %arrayidx = getelementptr i8, ptr %6, i64 %7, !dbg !1327
  %8 = load i8, ptr %arrayidx, align 1, !dbg !1327
  %conv = sext i8 %8 to i32, !dbg !1327
  %9 = load ptr, ptr %pattern, align 8, !dbg !1329
  %10 = load i64, ptr %k, align 8, !dbg !1330
  %arrayidx2 = getelementptr i8, ptr %9, i64 %10, !dbg !1329
  %11 = load i8, ptr %arrayidx2, align 1, !dbg !1329
  %conv3 = sext i8 %11 to i32, !dbg !1329
  %cmp4 = icmp eq i32 %conv, %conv3, !dbg !1331
  br label %land.end

land.end:                                         ; preds = %land.rhs, %while.cond
  %12 = phi i1 [ false, %while.cond ], [ %cmp4, %land.rhs ], !dbg !1332
  br i1 %12, label %while.body, label %while.end, !dbg !1322

while.body:                                       ; preds = %land.end
  %13 = load i64, ptr %k, align 8, !dbg !1333
  %inc = add i64 %13, 1, !dbg !1333
  store i64 %inc, ptr %k, align 8, !dbg !1333
  br label %while.cond, !dbg !1322, !llvm.loop !1334

while.end:                                        ; preds = %land.end
  %14 = load i64, ptr %k, align 8, !dbg !1335
  %15 = load i64, ptr %length.addr, align 8, !dbg !1337
  %cmp6 = icmp eq i64 %14, %15, !dbg !1338
  br i1 %cmp6, label %if.then, label %if.end, !dbg !1339

if.then:                                          ; preds = %while.end
  %16 = load ptr, ptr %at, align 8, !dbg !1340
  store ptr %16, ptr %retval, align 8, !dbg !1341
  br label %return, !dbg !1341

if.end:                                           ; preds = %while.end
  br label %for.inc, !dbg !1342

for.inc:                                          ; preds = %if.end
  %17 = load i64, ptr %size.addr, align 8, !dbg !1343
  %dec = add i64 %17, -1, !dbg !1343
  store i64 %dec, ptr %size.addr, align 8, !dbg !1343
  %18 = load ptr, ptr %at, align 8, !dbg !1344
  %incdec.ptr = getelementptr i8, ptr %18, i32 1, !dbg !1344
  store ptr %incdec.ptr, ptr %at, align 8, !dbg !1344
  br label %for.cond, !dbg !1345, !llvm.loop !1346

for.end:                                          ; preds = %for.cond
  store ptr null, ptr %retval, align 8, !dbg !1348
  br label %return, !dbg !1348

return:                                           ; preds = %for.end, %if.then
  %19 = load ptr, ptr %retval, align 8, !dbg !1349
  ret ptr %19, !dbg !1349
}

; Function Attrs: noinline nounwind optnone willreturn memory(read) uwtable
define weak dso_local ptr @strchr(ptr noundef nonnull %text, i32 noundef %wanted) #6 !dbg !1350 {
entry:
  %retval = alloca ptr, align 8
  %text.addr = alloca ptr, align 8
  %wanted.addr = alloca i32, align 4
  store ptr %text, ptr %text.addr, align 8
    #dbg_declare(ptr %text.addr, !1353, !DIExpression(), !1354)
  store i32 %wanted, ptr %wanted.addr, align 4
    #dbg_declare(ptr %wanted.addr, !1355, !DIExpression(), !1356)
  br label %for.cond, !dbg !1357

for.cond:                                         ; preds = %for.inc, %entry
  %0 = load ptr, ptr %text.addr, align 8, !dbg !1358
  %1 = load i8, ptr %0, align 1, !dbg !1361
  %conv = sext i8 %1 to i32, !dbg !1361
  %2 = load i32, ptr %wanted.addr, align 4, !dbg !1362
  %conv1 = trunc i32 %2 to i8, !dbg !1363
  %conv2 = sext i8 %conv1 to i32, !dbg !1363
  %cmp = icmp ne i32 %conv, %conv2, !dbg !1364
  br i1 %cmp, label %for.body, label %for.end, !dbg !1365

for.body:                                         ; preds = %for.cond
  %3 = load ptr, ptr %text.addr, align 8, !dbg !1366
  %4 = load i8, ptr %3, align 1, !dbg !1368
  %tobool = icmp ne i8 %4, 0, !dbg !1368
  br i1 %tobool, label %if.end, label %if.then, !dbg !1369

if.then:                                          ; preds = %for.body
  store ptr null, ptr %retval, align 8, !dbg !1370
  br label %return, !dbg !1370

if.end:                                           ; preds = %for.body
  br label %for.inc, !dbg !1366

for.inc:                                          ; preds = %if.end
  %5 = load ptr, ptr %text.addr, align 8, !dbg !1371
  %incdec.ptr = getelementptr i8, ptr %5, i32 1, !dbg !1371
  store ptr %incdec.ptr, ptr %text.addr, align 8, !dbg !1371
  br label %for.cond, !dbg !1372, !llvm.loop !1373

for.end:                                          ; preds = %for.cond
  %6 = load ptr, ptr %text.addr, align 8, !dbg !1375
  store ptr %6, ptr %retval, align 8, !dbg !1376
  br label %return, !dbg !1376

return:                                           ; preds = %for.end, %if.then
  %7 = load ptr, ptr %retval, align 8, !dbg !1377
  ret ptr %7, !dbg !1377
}

; Function Attrs: noinline nounwind optnone willreturn memory(read) uwtable
define weak dso_local ptr @strchrnul(ptr noundef nonnull %text, i32 noundef %wanted) #6 !dbg !1378 {
entry:
  %text.addr = alloca ptr, align 8
  %wanted.addr = alloca i32, align 4
  store ptr %text, ptr %text.addr, align 8
    #dbg_declare(ptr %text.addr, !1379, !DIExpression(), !1380)
  store i32 %wanted, ptr %wanted.addr, align 4
    #dbg_declare(ptr %wanted.addr, !1381, !DIExpression(), !1382)
  br label %while.cond, !dbg !1383

while.cond:                                       ; preds = %while.body, %entry
  %0 = load ptr, ptr %text.addr, align 8, !dbg !1384
  %1 = load i8, ptr %0, align 1, !dbg !1385
  %conv = sext i8 %1 to i32, !dbg !1385
  %tobool = icmp ne i32 %conv, 0, !dbg !1385
  br i1 %tobool, label %land.rhs, label %land.end, !dbg !1386

land.rhs:                                         ; preds = %while.cond
  %2 = load ptr, ptr %text.addr, align 8, !dbg !1387
  %3 = load i8, ptr %2, align 1, !dbg !1388
  %conv1 = sext i8 %3 to i32, !dbg !1388
  %4 = load i32, ptr %wanted.addr, align 4, !dbg !1389
  %conv2 = trunc i32 %4 to i8, !dbg !1390
  %conv3 = sext i8 %conv2 to i32, !dbg !1390
  %cmp = icmp ne i32 %conv1, %conv3, !dbg !1391
  br label %land.end

land.end:                                         ; preds = %land.rhs, %while.cond
  %5 = phi i1 [ false, %while.cond ], [ %cmp, %land.rhs ], !dbg !1392
  br i1 %5, label %while.body, label %while.end, !dbg !1383

while.body:                                       ; preds = %land.end
  %6 = load ptr, ptr %text.addr, align 8, !dbg !1393
  %incdec.ptr = getelementptr i8, ptr %6, i32 1, !dbg !1393
  store ptr %incdec.ptr, ptr %text.addr, align 8, !dbg !1393
  br label %while.cond, !dbg !1383, !llvm.loop !1394

while.end:                                        ; preds = %land.end
  %7 = load ptr, ptr %text.addr, align 8, !dbg !1395
  ret ptr %7, !dbg !1396
}

; Function Attrs: noinline nounwind optnone willreturn memory(read) uwtable
define weak dso_local ptr @strrchr(ptr noundef nonnull %text, i32 noundef %wanted) #6 !dbg !1397 {
entry:
  %text.addr = alloca ptr, align 8
  %wanted.addr = alloca i32, align 4
  %last = alloca ptr, align 8
  store ptr %text, ptr %text.addr, align 8
    #dbg_declare(ptr %text.addr, !1398, !DIExpression(), !1399)
  store i32 %wanted, ptr %wanted.addr, align 4
    #dbg_declare(ptr %wanted.addr, !1400, !DIExpression(), !1401)
    #dbg_declare(ptr %last, !1402, !DIExpression(), !1403)
  store ptr null, ptr %last, align 8, !dbg !1403
  br label %for.cond, !dbg !1404

for.cond:                                         ; preds = %for.inc, %entry
  %0 = load ptr, ptr %text.addr, align 8, !dbg !1405
  %1 = load i8, ptr %0, align 1, !dbg !1410
  %conv = sext i8 %1 to i32, !dbg !1410
  %2 = load i32, ptr %wanted.addr, align 4, !dbg !1411
  %conv1 = trunc i32 %2 to i8, !dbg !1412
  %conv2 = sext i8 %conv1 to i32, !dbg !1412
  %cmp = icmp eq i32 %conv, %conv2, !dbg !1413
  br i1 %cmp, label %if.then, label %if.end, !dbg !1414

if.then:                                          ; preds = %for.cond
  %3 = load ptr, ptr %text.addr, align 8, !dbg !1415
  store ptr %3, ptr %last, align 8, !dbg !1416
  br label %if.end, !dbg !1417

if.end:                                           ; preds = %if.then, %for.cond
  %4 = load ptr, ptr %text.addr, align 8, !dbg !1418
  %5 = load i8, ptr %4, align 1, !dbg !1420
  %tobool = icmp ne i8 %5, 0, !dbg !1420
  br i1 %tobool, label %if.end5, label %if.then4, !dbg !1421

if.then4:                                         ; preds = %if.end
  %6 = load ptr, ptr %last, align 8, !dbg !1422
  ret ptr %6, !dbg !1423

if.end5:                                          ; preds = %if.end
  br label %for.inc, !dbg !1424

for.inc:                                          ; preds = %if.end5
  %7 = load ptr, ptr %text.addr, align 8, !dbg !1425
  %incdec.ptr = getelementptr i8, ptr %7, i32 1, !dbg !1425
  store ptr %incdec.ptr, ptr %text.addr, align 8, !dbg !1425
  br label %for.cond, !dbg !1426, !llvm.loop !1427
}

; Function Attrs: noinline nounwind optnone willreturn memory(read) uwtable
define weak dso_local ptr @strstr(ptr noundef nonnull %text, ptr noundef nonnull %wanted) #6 !dbg !1430 {
entry:
  %retval = alloca ptr, align 8
  %text.addr = alloca ptr, align 8
  %wanted.addr = alloca ptr, align 8
  %k = alloca i64, align 8
  store ptr %text, ptr %text.addr, align 8
    #dbg_declare(ptr %text.addr, !1433, !DIExpression(), !1434)
  store ptr %wanted, ptr %wanted.addr, align 8
    #dbg_declare(ptr %wanted.addr, !1435, !DIExpression(), !1436)
  br label %for.cond, !dbg !1437

for.cond:                                         ; preds = %for.inc, %entry
    #dbg_declare(ptr %k, !1438, !DIExpression(), !1442)
  store i64 0, ptr %k, align 8, !dbg !1442
  br label %while.cond, !dbg !1443

while.cond:                                       ; preds = %while.body, %for.cond
  %0 = load ptr, ptr %wanted.addr, align 8, !dbg !1444
  %1 = load i64, ptr %k, align 8, !dbg !1445
  %arrayidx = getelementptr i8, ptr %0, i64 %1, !dbg !1444
  %2 = load i8, ptr %arrayidx, align 1, !dbg !1444
  %conv = sext i8 %2 to i32, !dbg !1444
  %tobool = icmp ne i32 %conv, 0, !dbg !1444
  br i1 %tobool, label %land.rhs, label %land.end, !dbg !1446

land.rhs:                                         ; preds = %while.cond
  %3 = load ptr, ptr %text.addr, align 8, !dbg !1447
  %4 = load i64, ptr %k, align 8, !dbg !1448
  %arrayidx1 = getelementptr i8, ptr %3, i64 %4, !dbg !1447
  %5 = load i8, ptr %arrayidx1, align 1, !dbg !1447
  %conv2 = sext i8 %5 to i32, !dbg !1447
  %6 = load ptr, ptr %wanted.addr, align 8, !dbg !1449
  %7 = load i64, ptr %k, align 8, !dbg !1450
  %arrayidx3 = getelementptr i8, ptr %6, i64 %7, !dbg !1449
  %8 = load i8, ptr %arrayidx3, align 1, !dbg !1449
  %conv4 = sext i8 %8 to i32, !dbg !1449
  %cmp = icmp eq i32 %conv2, %conv4, !dbg !1451
  br label %land.end

land.end:                                         ; preds = %land.rhs, %while.cond
  %9 = phi i1 [ false, %while.cond ], [ %cmp, %land.rhs ], !dbg !1452
  br i1 %9, label %while.body, label %while.end, !dbg !1443

while.body:                                       ; preds = %land.end
  %10 = load i64, ptr %k, align 8, !dbg !1453
  %inc = add i64 %10, 1, !dbg !1453
  store i64 %inc, ptr %k, align 8, !dbg !1453
  br label %while.cond, !dbg !1443, !llvm.loop !1454

while.end:                                        ; preds = %land.end
  %11 = load ptr, ptr %wanted.addr, align 8, !dbg !1455
  %12 = load i64, ptr %k, align 8, !dbg !1457
  %arrayidx6 = getelementptr i8, ptr %11, i64 %12, !dbg !1455
  %13 = load i8, ptr %arrayidx6, align 1, !dbg !1455
  %tobool7 = icmp ne i8 %13, 0, !dbg !1455
  br i1 %tobool7, label %if.end, label %if.then, !dbg !1458

if.then:                                          ; preds = %while.end
  %14 = load ptr, ptr %text.addr, align 8, !dbg !1459
  store ptr %14, ptr %retval, align 8, !dbg !1460
  br label %return, !dbg !1460

if.end:                                           ; preds = %while.end
  %15 = load ptr, ptr %text.addr, align 8, !dbg !1461
  %16 = load i64, ptr %k, align 8, !dbg !1463
  %arrayidx8 = getelementptr i8, ptr %15, i64 %16, !dbg !1461
  %17 = load i8, ptr %arrayidx8, align 1, !dbg !1461
  %tobool9 = icmp ne i8 %17, 0, !dbg !1461
  br i1 %tobool9, label %if.end11, label %if.then10, !dbg !1464

if.then10:                                        ; preds = %if.end
  store ptr null, ptr %retval, align 8, !dbg !1465
  br label %return, !dbg !1465

if.end11:                                         ; preds = %if.end
  br label %for.inc, !dbg !1466

for.inc:                                          ; preds = %if.end11
  %18 = load ptr, ptr %text.addr, align 8, !dbg !1467
  %incdec.ptr = getelementptr i8, ptr %18, i32 1, !dbg !1467
  store ptr %incdec.ptr, ptr %text.addr, align 8, !dbg !1467
  br label %for.cond, !dbg !1468, !llvm.loop !1469

return:                                           ; preds = %if.then10, %if.then
  %19 = load ptr, ptr %retval, align 8, !dbg !1472
  ret ptr %19, !dbg !1472
}

; Function Attrs: noinline nounwind optnone willreturn memory(read) uwtable
define weak dso_local i64 @strspn(ptr noundef nonnull %text, ptr noundef nonnull %accepted) #6 !dbg !1473 {
entry:
  %text.addr = alloca ptr, align 8
  %accepted.addr = alloca ptr, align 8
  %length = alloca i64, align 8
  store ptr %text, ptr %text.addr, align 8
    #dbg_declare(ptr %text.addr, !1476, !DIExpression(), !1477)
  store ptr %accepted, ptr %accepted.addr, align 8
    #dbg_declare(ptr %accepted.addr, !1478, !DIExpression(), !1479)
    #dbg_declare(ptr %length, !1480, !DIExpression(), !1481)
  store i64 0, ptr %length, align 8, !dbg !1481
  br label %while.cond, !dbg !1482

while.cond:                                       ; preds = %while.body, %entry
  %0 = load ptr, ptr %text.addr, align 8, !dbg !1483
  %1 = load i64, ptr %length, align 8, !dbg !1484
  %arrayidx = getelementptr i8, ptr %0, i64 %1, !dbg !1483
  %2 = load i8, ptr %arrayidx, align 1, !dbg !1483
  %conv = sext i8 %2 to i32, !dbg !1483
  %tobool = icmp ne i32 %conv, 0, !dbg !1483
  br i1 %tobool, label %land.rhs, label %land.end, !dbg !1485

land.rhs:                                         ; preds = %while.cond
  %3 = load ptr, ptr %text.addr, align 8, !dbg !1486
  %4 = load i64, ptr %length, align 8, !dbg !1487
  %arrayidx1 = getelementptr i8, ptr %3, i64 %4, !dbg !1486
  %5 = load i8, ptr %arrayidx1, align 1, !dbg !1486
  %6 = load ptr, ptr %accepted.addr, align 8, !dbg !1488
  %call = call i32 @is_among(i8 noundef signext %5, ptr noundef %6) #8, !dbg !1489
  %tobool2 = icmp ne i32 %call, 0, !dbg !1485
  br label %land.end

land.end:                                         ; preds = %land.rhs, %while.cond
  %7 = phi i1 [ false, %while.cond ], [ %tobool2, %land.rhs ], !dbg !1490
  br i1 %7, label %while.body, label %while.end, !dbg !1482

while.body:                                       ; preds = %land.end
  %8 = load i64, ptr %length, align 8, !dbg !1491
  %inc = add i64 %8, 1, !dbg !1491
  store i64 %inc, ptr %length, align 8, !dbg !1491
  br label %while.cond, !dbg !1482, !llvm.loop !1492

while.end:                                        ; preds = %land.end
  %9 = load i64, ptr %length, align 8, !dbg !1493
  ret i64 %9, !dbg !1494
}

; Function Attrs: noinline nounwind optnone uwtable
define internal i32 @is_among(i8 noundef signext %wanted, ptr noundef %set) #3 !dbg !1495 {
entry:
  %retval = alloca i32, align 4
  %wanted.addr = alloca i8, align 1
  %set.addr = alloca ptr, align 8
  store i8 %wanted, ptr %wanted.addr, align 1
    #dbg_declare(ptr %wanted.addr, !1498, !DIExpression(), !1499)
  store ptr %set, ptr %set.addr, align 8
    #dbg_declare(ptr %set.addr, !1500, !DIExpression(), !1501)
  br label %for.cond, !dbg !1502

for.cond:                                         ; preds = %for.inc, %entry
  %0 = load ptr, ptr %set.addr, align 8, !dbg !1503
  %1 = load i8, ptr %0, align 1, !dbg !1506
  %tobool = icmp ne i8 %1, 0, !dbg !1507
  br i1 %tobool, label %for.body, label %for.end, !dbg !1507

for.body:                                         ; preds = %for.cond
  %2 = load ptr, ptr %set.addr, align 8, !dbg !1508
  %3 = load i8, ptr %2, align 1, !dbg !1510
  %conv = sext i8 %3 to i32, !dbg !1510
  %4 = load i8, ptr %wanted.addr, align 1, !dbg !1511
  %conv1 = sext i8 %4 to i32, !dbg !1511
  %cmp = icmp eq i32 %conv, %conv1, !dbg !1512
  br i1 %cmp, label %if.then, label %if.end, !dbg !1513

if.then:                                          ; preds = %for.body
  store i32 1, ptr %retval, align 4, !dbg !1514
  br label %return, !dbg !1514

if.end:                                           ; preds = %for.body
  br label %for.inc, !dbg !1511

for.inc:                                          ; preds = %if.end
  %5 = load ptr, ptr %set.addr, align 8, !dbg !1515
  %incdec.ptr = getelementptr i8, ptr %5, i32 1, !dbg !1515
  store ptr %incdec.ptr, ptr %set.addr, align 8, !dbg !1515
  br label %for.cond, !dbg !1516, !llvm.loop !1517

for.end:                                          ; preds = %for.cond
  store i32 0, ptr %retval, align 4, !dbg !1519
  br label %return, !dbg !1519

return:                                           ; preds = %for.end, %if.then
  %6 = load i32, ptr %retval, align 4, !dbg !1520
  ret i32 %6, !dbg !1520
}

; Function Attrs: noinline nounwind optnone willreturn memory(read) uwtable
define weak dso_local i64 @strcspn(ptr noundef nonnull %text, ptr noundef nonnull %rejected) #6 !dbg !1521 {
entry:
  %text.addr = alloca ptr, align 8
  %rejected.addr = alloca ptr, align 8
  store ptr %text, ptr %text.addr, align 8
    #dbg_declare(ptr %text.addr, !1522, !DIExpression(), !1523)
  store ptr %rejected, ptr %rejected.addr, align 8
    #dbg_declare(ptr %rejected.addr, !1524, !DIExpression(), !1525)
  %0 = load ptr, ptr %text.addr, align 8, !dbg !1526
  %1 = load ptr, ptr %rejected.addr, align 8, !dbg !1527
  %call = call i64 @length_before(ptr noundef %0, ptr noundef %1) #8, !dbg !1528
  ret i64 %call, !dbg !1529
}

; Function Attrs: noinline nounwind optnone uwtable
define internal i64 @length_before(ptr noundef %text, ptr noundef %set) #3 !dbg !1530 {
entry:
  %text.addr = alloca ptr, align 8
  %set.addr = alloca ptr, align 8
  %length = alloca i64, align 8
  store ptr %text, ptr %text.addr, align 8
    #dbg_declare(ptr %text.addr, !1531, !DIExpression(), !1532)
  store ptr %set, ptr %set.addr, align 8
    #dbg_declare(ptr %set.addr, !1533, !DIExpression(), !1534)
    #dbg_declare(ptr %length, !1535, !DIExpression(), !1536)
  store i64 0, ptr %length, align 8, !dbg !1536
  br label %while.cond, !dbg !1537

while.cond:                                       ; preds = %while.body, %entry
  %0 = load ptr, ptr %text.addr, align 8, !dbg !1538
  %1 = load i64, ptr %length, align 8, !dbg !1539
  %arrayidx = getelementptr i8, ptr %0, i64 %1, !dbg !1538
  %2 = load i8, ptr %arrayidx, align 1, !dbg !1538
  %conv = sext i8 %2 to i32, !dbg !1538
  %tobool = icmp ne i32 %conv, 0, !dbg !1538
  br i1 %tobool, label %land.rhs, label %land.end, !dbg !1540

land.rhs:                                         ; preds = %while.cond
  %3 = load ptr, ptr %text.addr, align 8, !dbg !1541
  %4 = load i64, ptr %length, align 8, !dbg !1542
  %arrayidx1 = getelementptr i8, ptr %3, i64 %4, !dbg !1541
  %5 = load i8, ptr %arrayidx1, align 1, !dbg !1541
  %6 = load ptr, ptr %set.addr, align 8, !dbg !1543
  %call = call i32 @is_among(i8 noundef signext %5, ptr noundef %6) #8, !dbg !1544
  %tobool2 = icmp ne i32 %call, 0, !dbg !1545
  %lnot = xor i1 %tobool2, true, !dbg !1545
  br label %land.end

land.end:                                         ; preds = %land.rhs, %while.cond
  %7 = phi i1 [ false, %while.cond ], [ %lnot, %land.rhs ], !dbg !1546
  br i1 %7, label %while.body, label %while.end, !dbg !1537

while.body:                                       ; preds = %land.end
  %8 = load i64, ptr %length, align 8, !dbg !1547
  %inc = add i64 %8, 1, !dbg !1547
  store i64 %inc, ptr %length, align 8, !dbg !1547
  br label %while.cond, !dbg !1537, !llvm.loop !1548

while.end:                                        ; preds = %land.end
  %9 = load i64, ptr %length, align 8, !dbg !1549
  ret i64 %9, !dbg !1550
}

; Function Attrs: noinline nounwind optnone willreturn memory(read) uwtable
define weak dso_local ptr @strpbrk(ptr noundef nonnull %text, ptr noundef nonnull %accepted) #6 !dbg !1551 {
entry:
  %text.addr = alloca ptr, align 8
  %accepted.addr = alloca ptr, align 8
  store ptr %text, ptr %text.addr, align 8
    #dbg_declare(ptr %text.addr, !1552, !DIExpression(), !1553)
  store ptr %accepted, ptr %accepted.addr, align 8
    #dbg_declare(ptr %accepted.addr, !1554, !DIExpression(), !1555)
  %0 = load ptr, ptr %text.addr, align 8, !dbg !1556
  %1 = load ptr, ptr %accepted.addr, align 8, !dbg !1557
  %call = call i64 @length_before(ptr noundef %0, ptr noundef %1) #8, !dbg !1558
  %2 = load ptr, ptr %text.addr, align 8, !dbg !1559
  %add.ptr = getelementptr i8, ptr %2, i64 %call, !dbg !1559
  store ptr %add.ptr, ptr %text.addr, align 8, !dbg !1559
  %3 = load ptr, ptr %text.addr, align 8, !dbg !1560
  %4 = load i8, ptr %3, align 1, !dbg !1561
  %conv = sext i8 %4 to i32, !dbg !1561
  %tobool = icmp ne i32 %conv, 0, !dbg !1561
  br i1 %tobool, label %cond.true, label %cond.false, !dbg !1561

cond.true:                                        ; preds = %entry
  %5 = load ptr, ptr %text.addr, align 8, !dbg !1562
  br label %cond.end, !dbg !1561

cond.false:                                       ; preds = %entry
  br label %cond.end, !dbg !1561

cond.end:                                         ; preds = %cond.false, %cond.true
  %cond = phi ptr [ %5, %cond.true ], [ null, %cond.false ], !dbg !1561
  ret ptr %cond, !dbg !1563
}

; Function Attrs: noinline nounwind optnone uwtable
define weak dso_local ptr @strtok_r(ptr noalias noundef %text, ptr noalias noundef nonnull %separators, ptr noalias noundef nonnull %rest) #3 !dbg !1564 {
entry:
  %text.addr = alloca ptr, align 8
  %separators.addr = alloca ptr, align 8
  %rest.addr = alloca ptr, align 8
  store ptr %text, ptr %text.addr, align 8
    #dbg_declare(ptr %text.addr, !1567, !DIExpression(), !1568)
  store ptr %separators, ptr %separators.addr, align 8
    #dbg_declare(ptr %separators.addr, !1569, !DIExpression(), !1570)
  store ptr %rest, ptr %rest.addr, align 8
    #dbg_declare(ptr %rest.addr, !1571, !DIExpression(), !1572)
  %0 = load ptr, ptr %text.addr, align 8, !dbg !1573
  %1 = load ptr, ptr %separators.addr, align 8, !dbg !1574
  %2 = load ptr, ptr %rest.addr, align 8, !dbg !1575
  %call = call ptr @next_token(ptr noundef %0, ptr noundef %1, ptr noundef %2) #8, !dbg !1576
  ret ptr %call, !dbg !1577
}

; Function Attrs: noinline nounwind optnone uwtable
define internal ptr @next_token(ptr noundef %text, ptr noundef %separators, ptr noundef %rest) #3 !dbg !1578 {
entry:
  %retval = alloca ptr, align 8
  %text.addr = alloca ptr, align 8
  %separators.addr = alloca ptr, align 8
  %rest.addr = alloca ptr, align 8
  store ptr %text, ptr %text.addr, align 8
    #dbg_declare(ptr %text.addr, !1581, !DIExpression(), !1582)
  store ptr %separators, ptr %separators.addr, align 8
    #dbg_declare(ptr %separators.addr, !1583, !DIExpression(), !1584)
  store ptr %rest, ptr %rest.addr, align 8
    #dbg_declare(ptr %rest.addr, !1585, !DIExpression(), !1586)
  %0 = load ptr, ptr %text.addr, align 8, !dbg !1587
  %tobool = icmp ne ptr %0, null, !dbg !1587
  br i1 %tobool, label %if.end, label %if.then, !dbg !1589

if.then:                                          ; preds = %entry
  %1 = load ptr, ptr %rest.addr, align 8, !dbg !1590
  %2 = load ptr, ptr %1, align 8, !dbg !1591
  store ptr %2, ptr %text.addr, align 8, !dbg !1592
  br label %if.end, !dbg !1593

if.end:                                           ; preds = %if.then, %entry
  br label %while.cond, !dbg !1594

while.cond:                                       ; preds = %while.body, %if.end
  %3 = load ptr, ptr %text.addr, align 8, !dbg !1595
  %tobool1 = icmp ne ptr %3, null, !dbg !1595
  br i1 %tobool1, label %land.lhs.true, label %land.end, !dbg !1596

land.lhs.true:                                    ; preds = %while.cond
  %4 = load ptr, ptr %text.addr, align 8, !dbg !1597
  %5 = load i8, ptr %4, align 1, !dbg !1598
  %conv = sext i8 %5 to i32, !dbg !1598
  %tobool2 = icmp ne i32 %conv, 0, !dbg !1598
  br i1 %tobool2, label %land.rhs, label %land.end, !dbg !1599

land.rhs:                                         ; preds = %land.lhs.true
  %6 = load ptr, ptr %text.addr, align 8, !dbg !1600
  %7 = load i8, ptr %6, align 1, !dbg !1601
  %8 = load ptr, ptr %separators.addr, align 8, !dbg !1602
  %call = call i32 @is_among(i8 noundef signext %7, ptr noundef %8) #8, !dbg !1603
  %tobool3 = icmp ne i32 %call, 0, !dbg !1599
  br label %land.end

land.end:                                         ; preds = %land.rhs, %land.lhs.true, %while.cond
  %9 = phi i1 [ false, %land.lhs.true ], [ false, %while.cond ], [ %tobool3, %land.rhs ], !dbg !1604
  br i1 %9, label %while.body, label %while.end, !dbg !1594

while.body:                                       ; preds = %land.end
  %10 = load ptr, ptr %text.addr, align 8, !dbg !1605
  %incdec.ptr = getelementptr i8, ptr %10, i32 1, !dbg !1605
  store ptr %incdec.ptr, ptr %text.addr, align 8, !dbg !1605
  br label %while.cond, !dbg !1594, !llvm.loop !1606

while.end:                                        ; preds = %land.end
  %11 = load ptr, ptr %text.addr, align 8, !dbg !1607
  %tobool4 = icmp ne ptr %11, null, !dbg !1607
  br i1 %tobool4, label %lor.lhs.false, label %if.then6, !dbg !1609

lor.lhs.false:                                    ; preds = %while.end
  %12 = load ptr, ptr %text.addr, align 8, !dbg !1610
  %13 = load i8, ptr %12, align 1, !dbg !1611
  %tobool5 = icmp ne i8 %13, 0, !dbg !1611
  br i1 %tobool5, label %if.end7, label %if.then6, !dbg !1612

if.then6:                                         ; preds = %lor.lhs.false, %while.end
  %14 = load ptr, ptr %rest.addr, align 8, !dbg !1613
  store ptr null, ptr %14, align 8, !dbg !1614
  store ptr null, ptr %retval, align 8, !dbg !1615
  br label %return, !dbg !1615

if.end7:                                          ; preds = %lor.lhs.false
  %15 = load ptr, ptr %text.addr, align 8, !dbg !1616
  %16 = load ptr, ptr %separators.addr, align 8, !dbg !1617
  %call8 = call ptr @cut(ptr noundef %15, ptr noundef %16) #8, !dbg !1618
  %17 = load ptr, ptr %rest.addr, align 8, !dbg !1619
  store ptr %call8, ptr %17, align 8, !dbg !1620
  %18 = load ptr, ptr %text.addr, align 8, !dbg !1621
  store ptr %18, ptr %retval, align 8, !dbg !1622
  br label %return, !dbg !1622

return:                                           ; preds = %if.end7, %if.then6
  %19 = load ptr, ptr %retval, align 8, !dbg !1623
  ret ptr %19, !dbg !1623
}

; Function Attrs: noinline nounwind optnone uwtable
define internal ptr @cut(ptr noundef %text, ptr noundef %separators) #3 !dbg !1624 {
entry:
  %retval = alloca ptr, align 8
  %text.addr = alloca ptr, align 8
  %separators.addr = alloca ptr, align 8
  %end = alloca ptr, align 8
  store ptr %text, ptr %text.addr, align 8
    #dbg_declare(ptr %text.addr, !1627, !DIExpression(), !1628)
  store ptr %separators, ptr %separators.addr, align 8
    #dbg_declare(ptr %separators.addr, !1629, !DIExpression(), !1630)
    #dbg_declare(ptr %end, !1631, !DIExpression(), !1632)
  %0 = load ptr, ptr %text.addr, align 8, !dbg !1633
  %1 = load ptr, ptr %text.addr, align 8, !dbg !1634
  %2 = load ptr, ptr %separators.addr, align 8, !dbg !1635
  %call = call i64 @length_before(ptr noundef %1, ptr noundef %2) #8, !dbg !1636
  %add.ptr = getelementptr i8, ptr %0, i64 %call, !dbg !1637
  store ptr %add.ptr, ptr %end, align 8, !dbg !1632
  %3 = load ptr, ptr %end, align 8, !dbg !1638
  %4 = load i8, ptr %3, align 1, !dbg !1640
  %tobool = icmp ne i8 %4, 0, !dbg !1640
  br i1 %tobool, label %if.end, label %if.then, !dbg !1641

if.then:                                          ; preds = %entry
  store ptr null, ptr %retval, align 8, !dbg !1642
  br label %return, !dbg !1642

if.end:                                           ; preds = %entry
  %5 = load ptr, ptr %end, align 8, !dbg !1643
  store i8 0, ptr %5, align 1, !dbg !1644
  %6 = load ptr, ptr %end, align 8, !dbg !1645
  %add.ptr1 = getelementptr i8, ptr %6, i64 1, !dbg !1646
  store ptr %add.ptr1, ptr %retval, align 8, !dbg !1647
  br label %return, !dbg !1647

return:                                           ; preds = %if.end, %if.then
  %7 = load ptr, ptr %retval, align 8, !dbg !1648
  ret ptr %7, !dbg !1648
}

; Function Attrs: noinline nounwind optnone uwtable
define weak dso_local ptr @strtok(ptr noalias noundef %text, ptr noalias noundef nonnull %separators) #3 !dbg !126 {
entry:
  %text.addr = alloca ptr, align 8
  %separators.addr = alloca ptr, align 8
  store ptr %text, ptr %text.addr, align 8
    #dbg_declare(ptr %text.addr, !1649, !DIExpression(), !1650)
  store ptr %separators, ptr %separators.addr, align 8
    #dbg_declare(ptr %separators.addr, !1651, !DIExpression(), !1652)
  %0 = load ptr, ptr %text.addr, align 8, !dbg !1653
  %1 = load ptr, ptr %separators.addr, align 8, !dbg !1654
  %call = call ptr @next_token(ptr noundef %0, ptr noundef %1, ptr noundef @strtok.rest) #8, !dbg !1655
  ret ptr %call, !dbg !1656
}

; Function Attrs: noinline nounwind optnone uwtable
define weak dso_local ptr @strsep(ptr noalias noundef nonnull %rest, ptr noalias noundef nonnull %separators) #3 !dbg !1657 {
entry:
  %rest.addr = alloca ptr, align 8
  %separators.addr = alloca ptr, align 8
  %text = alloca ptr, align 8
  store ptr %rest, ptr %rest.addr, align 8
    #dbg_declare(ptr %rest.addr, !1660, !DIExpression(), !1661)
  store ptr %separators, ptr %separators.addr, align 8
    #dbg_declare(ptr %separators.addr, !1662, !DIExpression(), !1663)
    #dbg_declare(ptr %text, !1664, !DIExpression(), !1665)
  %0 = load ptr, ptr %rest.addr, align 8, !dbg !1666
  %1 = load ptr, ptr %0, align 8, !dbg !1667
  store ptr %1, ptr %text, align 8, !dbg !1665
  %2 = load ptr, ptr %text, align 8, !dbg !1668
  %tobool = icmp ne ptr %2, null, !dbg !1668
  br i1 %tobool, label %if.then, label %if.end, !dbg !1670

if.then:                                          ; preds = %entry
  %3 = load ptr, ptr %text, align 8, !dbg !1671
  %4 = load ptr, ptr %separators.addr, align 8, !dbg !1672
  %call = call ptr @cut(ptr noundef %3, ptr noundef %4) #8, !dbg !1673
  %5 = load ptr, ptr %rest.addr, align 8, !dbg !1674
  store ptr %call, ptr %5, align 8, !dbg !1675
  br label %if.end, !dbg !1676

if.end:                                           ; preds = %if.then, %entry
  %6 = load ptr, ptr %text, align 8, !dbg !1677
  ret ptr %6, !dbg !1678
}

; Function Attrs: noinline nounwind optnone willreturn memory(read) uwtable
define weak dso_local i32 @strcasecmp(ptr noundef nonnull %one, ptr noundef nonnull %two) #6 !dbg !1679 {
entry:
  %one.addr = alloca ptr, align 8
  %two.addr = alloca ptr, align 8
  store ptr %one, ptr %one.addr, align 8
    #dbg_declare(ptr %one.addr, !1680, !DIExpression(), !1681)
  store ptr %two, ptr %two.addr, align 8
    #dbg_declare(ptr %two.addr, !1682, !DIExpression(), !1683)
  br label %for.cond, !dbg !1684

for.cond:                                         ; preds = %for.inc, %entry
  %0 = load ptr, ptr %one.addr, align 8, !dbg !1685
  %1 = load i8, ptr %0, align 1, !dbg !1688
  %conv = sext i8 %1 to i32, !dbg !1688
  %tobool = icmp ne i32 %conv, 0, !dbg !1688
  br i1 %tobool, label %land.rhs, label %land.end, !dbg !1689

land.rhs:                                         ; preds = %for.cond
  %2 = load ptr, ptr %one.addr, align 8, !dbg !1690
  %3 = load i8, ptr %2, align 1, !dbg !1691
  %call = call i32 @small(i8 noundef signext %3) #8, !dbg !1692
  %4 = load ptr, ptr %two.addr, align 8, !dbg !1693
  %5 = load i8, ptr %4, align 1, !dbg !1694
  %call1 = call i32 @small(i8 noundef signext %5) #8, !dbg !1695
  %cmp = icmp eq i32 %call, %call1, !dbg !1696
  br label %land.end

land.end:                                         ; preds = %land.rhs, %for.cond
  %6 = phi i1 [ false, %for.cond ], [ %cmp, %land.rhs ], !dbg !1697
  br i1 %6, label %for.body, label %for.end, !dbg !1698

for.body:                                         ; preds = %land.end
  %7 = load ptr, ptr %two.addr, align 8, !dbg !1699
  %incdec.ptr = getelementptr i8, ptr %7, i32 1, !dbg !1699
  store ptr %incdec.ptr, ptr %two.addr, align 8, !dbg !1699
  br label %for.inc, !dbg !1700

for.inc:                                          ; preds = %for.body
  %8 = load ptr, ptr %one.addr, align 8, !dbg !1701
  %incdec.ptr3 = getelementptr i8, ptr %8, i32 1, !dbg !1701
  store ptr %incdec.ptr3, ptr %one.addr, align 8, !dbg !1701
  br label %for.cond, !dbg !1702, !llvm.loop !1703

for.end:                                          ; preds = %land.end
  %9 = load ptr, ptr %one.addr, align 8, !dbg !1705
  %10 = load i8, ptr %9, align 1, !dbg !1706
  %call4 = call i32 @small(i8 noundef signext %10) #8, !dbg !1707
  %11 = load ptr, ptr %two.addr, align 8, !dbg !1708
  %12 = load i8, ptr %11, align 1, !dbg !1709
  %call5 = call i32 @small(i8 noundef signext %12) #8, !dbg !1710
  %sub = sub i32 %call4, %call5, !dbg !1711
  ret i32 %sub, !dbg !1712
}

; Function Attrs: noinline nounwind optnone uwtable
define internal i32 @small(i8 noundef signext %letter) #3 !dbg !1713 {
entry:
  %letter.addr = alloca i8, align 1
  %c = alloca i8, align 1
  store i8 %letter, ptr %letter.addr, align 1
    #dbg_declare(ptr %letter.addr, !1714, !DIExpression(), !1715)
    #dbg_declare(ptr %c, !1716, !DIExpression(), !1717)
  %0 = load i8, ptr %letter.addr, align 1, !dbg !1718
  store i8 %0, ptr %c, align 1, !dbg !1717
  %1 = load i8, ptr %c, align 1, !dbg !1719
  %conv = zext i8 %1 to i32, !dbg !1719
  %cmp = icmp sge i32 %conv, 65, !dbg !1720
  br i1 %cmp, label %land.lhs.true, label %cond.false, !dbg !1721

land.lhs.true:                                    ; preds = %entry
  %2 = load i8, ptr %c, align 1, !dbg !1722
  %conv2 = zext i8 %2 to i32, !dbg !1722
  %cmp3 = icmp sle i32 %conv2, 90, !dbg !1723
  br i1 %cmp3, label %cond.true, label %cond.false, !dbg !1719

cond.true:                                        ; preds = %land.lhs.true
  %3 = load i8, ptr %c, align 1, !dbg !1724
  %conv5 = zext i8 %3 to i32, !dbg !1724
  %add = add i32 %conv5, 32, !dbg !1725
  br label %cond.end, !dbg !1719

cond.false:                                       ; preds = %land.lhs.true, %entry
  %4 = load i8, ptr %c, align 1, !dbg !1726
  %conv6 = zext i8 %4 to i32, !dbg !1726
  br label %cond.end, !dbg !1719

cond.end:                                         ; preds = %cond.false, %cond.true
  %cond = phi i32 [ %add, %cond.true ], [ %conv6, %cond.false ], !dbg !1719
  ret i32 %cond, !dbg !1727
}

; Function Attrs: noinline nounwind optnone willreturn memory(read) uwtable
define weak dso_local i32 @strncasecmp(ptr noundef nonnull %one, ptr noundef nonnull %two, i64 noundef %most) #6 !dbg !1728 {
entry:
  %retval = alloca i32, align 4
  %one.addr = alloca ptr, align 8
  %two.addr = alloca ptr, align 8
  %most.addr = alloca i64, align 8
  store ptr %one, ptr %one.addr, align 8
    #dbg_declare(ptr %one.addr, !1729, !DIExpression(), !1730)
  store ptr %two, ptr %two.addr, align 8
    #dbg_declare(ptr %two.addr, !1731, !DIExpression(), !1732)
  store i64 %most, ptr %most.addr, align 8
    #dbg_declare(ptr %most.addr, !1733, !DIExpression(), !1734)
  br label %for.cond, !dbg !1735

for.cond:                                         ; preds = %for.inc, %entry
  %0 = load i64, ptr %most.addr, align 8, !dbg !1736
  %cmp = icmp ugt i64 %0, 0, !dbg !1739
  br i1 %cmp, label %for.body, label %for.end, !dbg !1740

for.body:                                         ; preds = %for.cond
  %1 = load ptr, ptr %one.addr, align 8, !dbg !1741
  %2 = load i8, ptr %1, align 1, !dbg !1743
  %tobool = icmp ne i8 %2, 0, !dbg !1743
  br i1 %tobool, label %lor.lhs.false, label %if.then, !dbg !1744

lor.lhs.false:                                    ; preds = %for.body
  %3 = load ptr, ptr %one.addr, align 8, !dbg !1745
  %4 = load i8, ptr %3, align 1, !dbg !1746
  %call = call i32 @small(i8 noundef signext %4) #8, !dbg !1747
  %5 = load ptr, ptr %two.addr, align 8, !dbg !1748
  %6 = load i8, ptr %5, align 1, !dbg !1749
  %call1 = call i32 @small(i8 noundef signext %6) #8, !dbg !1750
  %cmp2 = icmp ne i32 %call, %call1, !dbg !1751
  br i1 %cmp2, label %if.then, label %if.end, !dbg !1752

if.then:                                          ; preds = %lor.lhs.false, %for.body
  %7 = load ptr, ptr %one.addr, align 8, !dbg !1753
  %8 = load i8, ptr %7, align 1, !dbg !1754
  %call3 = call i32 @small(i8 noundef signext %8) #8, !dbg !1755
  %9 = load ptr, ptr %two.addr, align 8, !dbg !1756
  %10 = load i8, ptr %9, align 1, !dbg !1757
  %call4 = call i32 @small(i8 noundef signext %10) #8, !dbg !1758
  %sub = sub i32 %call3, %call4, !dbg !1759
  store i32 %sub, ptr %retval, align 4, !dbg !1760
  br label %return, !dbg !1760

if.end:                                           ; preds = %lor.lhs.false
  br label %for.inc, !dbg !1761

for.inc:                                          ; preds = %if.end
  %11 = load i64, ptr %most.addr, align 8, !dbg !1762
  %dec = add i64 %11, -1, !dbg !1762
  store i64 %dec, ptr %most.addr, align 8, !dbg !1762
  %12 = load ptr, ptr %one.addr, align 8, !dbg !1763
  %incdec.ptr = getelementptr i8, ptr %12, i32 1, !dbg !1763
  store ptr %incdec.ptr, ptr %one.addr, align 8, !dbg !1763
  %13 = load ptr, ptr %two.addr, align 8, !dbg !1764
  %incdec.ptr5 = getelementptr i8, ptr %13, i32 1, !dbg !1764
  store ptr %incdec.ptr5, ptr %two.addr, align 8, !dbg !1764
  br label %for.cond, !dbg !1765, !llvm.loop !1766

for.end:                                          ; preds = %for.cond
  store i32 0, ptr %retval, align 4, !dbg !1768
  br label %return, !dbg !1768

return:                                           ; preds = %for.end, %if.then
  %14 = load i32, ptr %retval, align 4, !dbg !1769
  ret i32 %14, !dbg !1769
}

attributes #0 = { noinline noreturn nounwind optnone uwtable "frame-pointer"="all" "min-legal-vector-width"="0" "no-builtins" "no-trapping-math"="true" "stack-protector-buffer-size"="8" "target-cpu"="x86-64" "target-features"="+cmov,+cx8,+fxsr,+mmx,+sse,+sse2,+x87" "tune-cpu"="generic" }
attributes #1 = { "frame-pointer"="all" "no-builtins" "no-trapping-math"="true" "stack-protector-buffer-size"="8" "target-cpu"="x86-64" "target-features"="+cmov,+cx8,+fxsr,+mmx,+sse,+sse2,+x87" "tune-cpu"="generic" }
attributes #2 = { noreturn nounwind "frame-pointer"="all" "no-builtins" "no-trapping-math"="true" "stack-protector-buffer-size"="8" "target-cpu"="x86-64" "target-features"="+cmov,+cx8,+fxsr,+mmx,+sse,+sse2,+x87" "tune-cpu"="generic" }
attributes #3 = { noinline nounwind optnone uwtable "frame-pointer"="all" "min-legal-vector-width"="0" "no-builtins" "no-trapping-math"="true" "stack-protector-buffer-size"="8" "target-cpu"="x86-64" "target-features"="+cmov,+cx8,+fxsr,+mmx,+sse,+sse2,+x87" "tune-cpu"="generic" }
attributes #4 = { noinline nounwind optnone willreturn memory(none) uwtable "frame-pointer"="all" "min-legal-vector-width"="0" "no-builtins" "no-trapping-math"="true" "stack-protector-buffer-size"="8" "target-cpu"="x86-64" "target-features"="+cmov,+cx8,+fxsr,+mmx,+sse,+sse2,+x87" "tune-cpu"="generic" }
attributes #5 = { nocallback nofree nounwind willreturn memory(argmem: readwrite) }
attributes #6 = { noinline nounwind optnone willreturn memory(read) uwtable "frame-pointer"="all" "min-legal-vector-width"="0" "no-builtins" "no-trapping-math"="true" "stack-protector-buffer-size"="8" "target-cpu"="x86-64" "target-features"="+cmov,+cx8,+fxsr,+mmx,+sse,+sse2,+x87" "tune-cpu"="generic" }
attributes #7 = { nounwind "frame-pointer"="all" "no-builtins" "no-trapping-math"="true" "stack-protector-buffer-size"="8" "target-cpu"="x86-64" "target-features"="+cmov,+cx8,+fxsr,+mmx,+sse,+sse2,+x87" "tune-cpu"="generic" }
attributes #8 = { nobuiltin "no-builtins" }
attributes #9 = { nobuiltin noreturn nounwind "no-builtins" }
attributes #10 = { nobuiltin nounwind willreturn memory(none) "no-builtins" }
attributes #11 = { nobuiltin nounwind "no-builtins" }

!llvm.dbg.cu = !{!138, !17, !43, !47, !120, !134, !140}
!llvm.ident = !{!142, !142, !142, !142, !142, !142, !142}
!llvm.module.flags = !{!143, !144, !145, !146, !147}

!0 = !DIGlobalVariableExpression(var: !1, expr: !DIExpression())
!1 = distinct !DIGlobalVariable(scope: null, file: !2, line: 9, type: !3, isLocal: true, isDefinition: true)
!2 = !DIFile(filename: "library/assert.c", directory: ".", checksumkind: CSK_MD5, checksum: "60c7f42f0fd09b96c57d515b82d74455")
!3 = !DICompositeType(tag: DW_TAG_array_type, baseType: !4, size: 280, elements: !5)
!4 = !DIBasicType(name: "char", size: 8, encoding: DW_ATE_signed_char)
!5 = !{!6}
!6 = !DISubrange(count: 35)
!7 = !DIGlobalVariableExpression(var: !8, expr: !DIExpression())
!8 = distinct !DIGlobalVariable(name: "start", scope: !9, file: !10, line: 61, type: !14, isLocal: true, isDefinition: true)
!9 = distinct !DISubprogram(name: "__ctype_b_loc", scope: !10, file: !10, line: 60, type: !11, scopeLine: 60, flags: DIFlagPrototyped, spFlags: DISPFlagDefinition, unit: !17)
!10 = !DIFile(filename: "library/ctype.c", directory: ".", checksumkind: CSK_MD5, checksum: "d260750caba5af989133aa45037d3cfc")
!11 = !DISubroutineType(types: !12)
!12 = !{!13}
!13 = !DIDerivedType(tag: DW_TAG_pointer_type, baseType: !14, size: 64)
!14 = !DIDerivedType(tag: DW_TAG_pointer_type, baseType: !15, size: 64)
!15 = !DIDerivedType(tag: DW_TAG_const_type, baseType: !16)
!16 = !DIBasicType(name: "unsigned short", size: 16, encoding: DW_ATE_unsigned)
!17 = distinct !DICompileUnit(language: DW_LANG_C11, file: !10, producer: "Debian clang version 19.1.7 (3~deb12u1)", isOptimized: false, runtimeVersion: 0, emissionKind: FullDebug, enums: !18, retainedTypes: !28, globals: !30, splitDebugInlining: false, nameTableKind: None)
!18 = !{!19}
!19 = !DICompositeType(tag: DW_TAG_enumeration_type, file: !10, line: 33, baseType: !20, size: 32, elements: !21)
!20 = !DIBasicType(name: "int", size: 32, encoding: DW_ATE_signed)
!21 = !{!22, !23, !24, !25, !26, !27}
!22 = !DIEnumerator(name: "FIRST", value: -128)
!23 = !DIEnumerator(name: "PRINTED", value: 49152)
!24 = !DIEnumerator(name: "PUNCTUATION", value: 49156)
!25 = !DIEnumerator(name: "DIGIT", value: 55304)
!26 = !DIEnumerator(name: "CAPITAL", value: 50440)
!27 = !DIEnumerator(name: "SMALL", value: 50696)
!28 = !{!29}
!29 = !DIBasicType(name: "unsigned int", size: 32, encoding: DW_ATE_unsigned)
!30 = !{!7, !31}
!31 = !DIGlobalVariableExpression(var: !32, expr: !DIExpression())
!32 = distinct !DIGlobalVariable(name: "classes", scope: !17, file: !10, line: 42, type: !33, isLocal: true, isDefinition: true)
!33 = !DICompositeType(tag: DW_TAG_array_type, baseType: !15, size: 6144, elements: !34)
!34 = !{!35}
!35 = !DISubrange(count: 384)
!36 = !DIGlobalVariableExpression(var: !37, expr: !DIExpression())
!37 = distinct !DIGlobalVariable(name: "error", scope: !38, file: !39, line: 7, type: !20, isLocal: true, isDefinition: true)
!38 = distinct !DISubprogram(name: "__errno_location", scope: !39, file: !39, line: 6, type: !40, scopeLine: 6, flags: DIFlagPrototyped, spFlags: DISPFlagDefinition, unit: !43)
!39 = !DIFile(filename: "library/errno.c", directory: ".", checksumkind: CSK_MD5, checksum: "49152c32a9c6be9716d15503d3f4461c")
!40 = !DISubroutineType(types: !41)
!41 = !{!42}
!42 = !DIDerivedType(tag: DW_TAG_pointer_type, baseType: !20, size: 64)
!43 = distinct !DICompileUnit(language: DW_LANG_C11, file: !39, producer: "Debian clang version 19.1.7 (3~deb12u1)", isOptimized: false, runtimeVersion: 0, emissionKind: FullDebug, globals: !44, splitDebugInlining: false, nameTableKind: None)
!44 = !{!36}
!45 = !DIGlobalVariableExpression(var: !46, expr: !DIExpression())
!46 = distinct !DIGlobalVariable(name: "output", scope: !47, file: !48, line: 7, type: !55, isLocal: true, isDefinition: true)
!47 = distinct !DICompileUnit(language: DW_LANG_C11, file: !48, producer: "Debian clang version 19.1.7 (3~deb12u1)", isOptimized: false, runtimeVersion: 0, emissionKind: FullDebug, retainedTypes: !49, globals: !51, splitDebugInlining: false, nameTableKind: None)
!48 = !DIFile(filename: "library/stdio.c", directory: ".", checksumkind: CSK_MD5, checksum: "59f623ab4acf93d3bf565fd914438146")
!49 = !{!50}
!50 = !DIBasicType(name: "unsigned char", size: 8, encoding: DW_ATE_unsigned_char)
!51 = !{!52, !114, !45, !116}
!52 = !DIGlobalVariableExpression(var: !53, expr: !DIExpression())
!53 = distinct !DIGlobalVariable(name: "stdout", scope: !47, file: !48, line: 9, type: !54, isLocal: false, isDefinition: true)
!54 = !DIDerivedType(tag: DW_TAG_pointer_type, baseType: !55, size: 64)
!55 = !DIDerivedType(tag: DW_TAG_typedef, name: "FILE", file: !56, line: 7, baseType: !57)
!56 = !DIFile(filename: "/usr/include/x86_64-linux-gnu/bits/types/FILE.h", directory: "", checksumkind: CSK_MD5, checksum: "571f9fb6223c42439075fdde11a0de5d")
!57 = distinct !DICompositeType(tag: DW_TAG_structure_type, name: "_IO_FILE", file: !58, line: 49, size: 1728, elements: !59)
!58 = !DIFile(filename: "/usr/include/x86_64-linux-gnu/bits/types/struct_FILE.h", directory: "", checksumkind: CSK_MD5, checksum: "1bad07471b7974df4ecc1d1c2ca207e6")
!59 = !{!60, !61, !63, !64, !65, !66, !67, !68, !69, !70, !71, !72, !73, !76, !78, !79, !80, !84, !85, !87, !91, !94, !96, !99, !102, !103, !105, !109, !110}
!60 = !DIDerivedType(tag: DW_TAG_member, name: "_flags", scope: !57, file: !58, line: 51, baseType: !20, size: 32)
!61 = !DIDerivedType(tag: DW_TAG_member, name: "_IO_read_ptr", scope: !57, file: !58, line: 54, baseType: !62, size: 64, offset: 64)
!62 = !DIDerivedType(tag: DW_TAG_pointer_type, baseType: !4, size: 64)
!63 = !DIDerivedType(tag: DW_TAG_member, name: "_IO_read_end", scope: !57, file: !58, line: 55, baseType: !62, size: 64, offset: 128)
!64 = !DIDerivedType(tag: DW_TAG_member, name: "_IO_read_base", scope: !57, file: !58, line: 56, baseType: !62, size: 64, offset: 192)
!65 = !DIDerivedType(tag: DW_TAG_member, name: "_IO_write_base", scope: !57, file: !58, line: 57, baseType: !62, size: 64, offset: 256)
!66 = !DIDerivedType(tag: DW_TAG_member, name: "_IO_write_ptr", scope: !57, file: !58, line: 58, baseType: !62, size: 64, offset: 320)
!67 = !DIDerivedType(tag: DW_TAG_member, name: "_IO_write_end", scope: !57, file: !58, line: 59, baseType: !62, size: 64, offset: 384)
!68 = !DIDerivedType(tag: DW_TAG_member, name: "_IO_buf_base", scope: !57, file: !58, line: 60, baseType: !62, size: 64, offset: 448)
!69 = !DIDerivedType(tag: DW_TAG_member, name: "_IO_buf_end", scope: !57, file: !58, line: 61, baseType: !62, size: 64, offset: 512)
!70 = !DIDerivedType(tag: DW_TAG_member, name: "_IO_save_base", scope: !57, file: !58, line: 64, baseType: !62, size: 64, offset: 576)
!71 = !DIDerivedType(tag: DW_TAG_member, name: "_IO_backup_base", scope: !57, file: !58, line: 65, baseType: !62, size: 64, offset: 640)
!72 = !DIDerivedType(tag: DW_TAG_member, name: "_IO_save_end", scope: !57, file: !58, line: 66, baseType: !62, size: 64, offset: 704)
!73 = !DIDerivedType(tag: DW_TAG_member, name: "_markers", scope: !57, file: !58, line: 68, baseType: !74, size: 64, offset: 768)
!74 = !DIDerivedType(tag: DW_TAG_pointer_type, baseType: !75, size: 64)
!75 = !DICompositeType(tag: DW_TAG_structure_type, name: "_IO_marker", file: !58, line: 36, flags: DIFlagFwdDecl)
!76 = !DIDerivedType(tag: DW_TAG_member, name: "_chain", scope: !57, file: !58, line: 70, baseType: !77, size: 64, offset: 832)
!77 = !DIDerivedType(tag: DW_TAG_pointer_type, baseType: !57, size: 64)
!78 = !DIDerivedType(tag: DW_TAG_member, name: "_fileno", scope: !57, file: !58, line: 72, baseType: !20, size: 32, offset: 896)
!79 = !DIDerivedType(tag: DW_TAG_member, name: "_flags2", scope: !57, file: !58, line: 73, baseType: !20, size: 32, offset: 928)
!80 = !DIDerivedType(tag: DW_TAG_member, name: "_old_offset", scope: !57, file: !58, line: 74, baseType: !81, size: 64, offset: 960)
!81 = !DIDerivedType(tag: DW_TAG_typedef, name: "__off_t", file: !82, line: 152, baseType: !83)
!82 = !DIFile(filename: "/usr/include/x86_64-linux-gnu/bits/types.h", directory: "", checksumkind: CSK_MD5, checksum: "d108b5f93a74c50510d7d9bc0ab36df9")
!83 = !DIBasicType(name: "long", size: 64, encoding: DW_ATE_signed)
!84 = !DIDerivedType(tag: DW_TAG_member, name: "_cur_column", scope: !57, file: !58, line: 77, baseType: !16, size: 16, offset: 1024)
!85 = !DIDerivedType(tag: DW_TAG_member, name: "_vtable_offset", scope: !57, file: !58, line: 78, baseType: !86, size: 8, offset: 1040)
!86 = !DIBasicType(name: "signed char", size: 8, encoding: DW_ATE_signed_char)
!87 = !DIDerivedType(tag: DW_TAG_member, name: "_shortbuf", scope: !57, file: !58, line: 79, baseType: !88, size: 8, offset: 1048)
!88 = !DICompositeType(tag: DW_TAG_array_type, baseType: !4, size: 8, elements: !89)
!89 = !{!90}
!90 = !DISubrange(count: 1)
!91 = !DIDerivedType(tag: DW_TAG_member, name: "_lock", scope: !57, file: !58, line: 81, baseType: !92, size: 64, offset: 1088)
!92 = !DIDerivedType(tag: DW_TAG_pointer_type, baseType: !93, size: 64)
!93 = !DIDerivedType(tag: DW_TAG_typedef, name: "_IO_lock_t", file: !58, line: 43, baseType: null)
!94 = !DIDerivedType(tag: DW_TAG_member, name: "_offset", scope: !57, file: !58, line: 89, baseType: !95, size: 64, offset: 1152)
!95 = !DIDerivedType(tag: DW_TAG_typedef, name: "__off64_t", file: !82, line: 153, baseType: !83)
!96 = !DIDerivedType(tag: DW_TAG_member, name: "_codecvt", scope: !57, file: !58, line: 91, baseType: !97, size: 64, offset: 1216)
!97 = !DIDerivedType(tag: DW_TAG_pointer_type, baseType: !98, size: 64)
!98 = !DICompositeType(tag: DW_TAG_structure_type, name: "_IO_codecvt", file: !58, line: 37, flags: DIFlagFwdDecl)
!99 = !DIDerivedType(tag: DW_TAG_member, name: "_wide_data", scope: !57, file: !58, line: 92, baseType: !100, size: 64, offset: 1280)
!100 = !DIDerivedType(tag: DW_TAG_pointer_type, baseType: !101, size: 64)
!101 = !DICompositeType(tag: DW_TAG_structure_type, name: "_IO_wide_data", file: !58, line: 38, flags: DIFlagFwdDecl)
!102 = !DIDerivedType(tag: DW_TAG_member, name: "_freeres_list", scope: !57, file: !58, line: 93, baseType: !77, size: 64, offset: 1344)
!103 = !DIDerivedType(tag: DW_TAG_member, name: "_freeres_buf", scope: !57, file: !58, line: 94, baseType: !104, size: 64, offset: 1408)
!104 = !DIDerivedType(tag: DW_TAG_pointer_type, baseType: null, size: 64)
!105 = !DIDerivedType(tag: DW_TAG_member, name: "__pad5", scope: !57, file: !58, line: 95, baseType: !106, size: 64, offset: 1472)
!106 = !DIDerivedType(tag: DW_TAG_typedef, name: "size_t", file: !107, line: 18, baseType: !108)
!107 = !DIFile(filename: "/usr/lib/llvm-19/lib/clang/19/include/__stddef_size_t.h", directory: "", checksumkind: CSK_MD5, checksum: "2c44e821a2b1951cde2eb0fb2e656867")
!108 = !DIBasicType(name: "unsigned long", size: 64, encoding: DW_ATE_unsigned)
!109 = !DIDerivedType(tag: DW_TAG_member, name: "_mode", scope: !57, file: !58, line: 96, baseType: !20, size: 32, offset: 1536)
!110 = !DIDerivedType(tag: DW_TAG_member, name: "_unused2", scope: !57, file: !58, line: 98, baseType: !111, size: 160, offset: 1568)
!111 = !DICompositeType(tag: DW_TAG_array_type, baseType: !4, size: 160, elements: !112)
!112 = !{!113}
!113 = !DISubrange(count: 20)
!114 = !DIGlobalVariableExpression(var: !115, expr: !DIExpression())
!115 = distinct !DIGlobalVariable(name: "stderr", scope: !47, file: !48, line: 10, type: !54, isLocal: false, isDefinition: true)
!116 = !DIGlobalVariableExpression(var: !117, expr: !DIExpression())
!117 = distinct !DIGlobalVariable(name: "errors", scope: !47, file: !48, line: 7, type: !55, isLocal: true, isDefinition: true)
!118 = !DIGlobalVariableExpression(var: !119, expr: !DIExpression())
!119 = distinct !DIGlobalVariable(name: "random_state", scope: !120, file: !121, line: 106, type: !108, isLocal: true, isDefinition: true)
!120 = distinct !DICompileUnit(language: DW_LANG_C11, file: !121, producer: "Debian clang version 19.1.7 (3~deb12u1)", isOptimized: false, runtimeVersion: 0, emissionKind: FullDebug, retainedTypes: !122, globals: !123, splitDebugInlining: false, nameTableKind: None)
!121 = !DIFile(filename: "library/stdlib.c", directory: ".", checksumkind: CSK_MD5, checksum: "1a29fd85c105609dc128336b155ef97d")
!122 = !{!20, !62, !108}
!123 = !{!118}
!124 = !DIGlobalVariableExpression(var: !125, expr: !DIExpression())
!125 = distinct !DIGlobalVariable(name: "rest", scope: !126, file: !127, line: 242, type: !62, isLocal: true, isDefinition: true)
!126 = distinct !DISubprogram(name: "strtok", scope: !127, file: !127, line: 241, type: !128, scopeLine: 241, flags: DIFlagPrototyped, spFlags: DISPFlagDefinition, unit: !134, retainedNodes: !137)
!127 = !DIFile(filename: "library/string.c", directory: ".", checksumkind: CSK_MD5, checksum: "dd0d81abb37872cc00b794854ac44a5b")
!128 = !DISubroutineType(types: !129)
!129 = !{!62, !130, !131}
!130 = !DIDerivedType(tag: DW_TAG_restrict_type, baseType: !62)
!131 = !DIDerivedType(tag: DW_TAG_restrict_type, baseType: !132)
!132 = !DIDerivedType(tag: DW_TAG_pointer_type, baseType: !133, size: 64)
!133 = !DIDerivedType(tag: DW_TAG_const_type, baseType: !4)
!134 = distinct !DICompileUnit(language: DW_LANG_C11, file: !127, producer: "Debian clang version 19.1.7 (3~deb12u1)", isOptimized: false, runtimeVersion: 0, emissionKind: FullDebug, retainedTypes: !135, globals: !136, splitDebugInlining: false, nameTableKind: None)
!135 = !{!62, !4, !104, !50}
!136 = !{!124}
!137 = !{}
!138 = distinct !DICompileUnit(language: DW_LANG_C11, file: !2, producer: "Debian clang version 19.1.7 (3~deb12u1)", isOptimized: false, runtimeVersion: 0, emissionKind: FullDebug, globals: !139, splitDebugInlining: false, nameTableKind: None)
!139 = !{!0}
!140 = distinct !DICompileUnit(language: DW_LANG_C11, file: !141, producer: "Debian clang version 19.1.7 (3~deb12u1)", isOptimized: false, runtimeVersion: 0, emissionKind: FullDebug, splitDebugInlining: false, nameTableKind: None)
!141 = !DIFile(filename: "library/strings.c", directory: ".", checksumkind: CSK_MD5, checksum: "b799ecd1764918092664e6e12ee070c9")
!142 = !{!"Debian clang version 19.1.7 (3~deb12u1)"}
!143 = !{i32 7, !"Dwarf Version", i32 5}
!144 = !{i32 2, !"Debug Info Version", i32 3}
!145 = !{i32 1, !"wchar_size", i32 4}
!146 = !{i32 7, !"uwtable", i32 2}
!147 = !{i32 7, !"frame-pointer", i32 2}
!148 = distinct !DISubprogram(name: "__assert_fail", scope: !2, file: !2, line: 8, type: !149, scopeLine: 8, flags: DIFlagPrototyped | DIFlagNoReturn, spFlags: DISPFlagDefinition, unit: !138, retainedNodes: !137)
!149 = !DISubroutineType(types: !150)
!150 = !{null, !132, !132, !29, !132}
!151 = !DILocalVariable(name: "condition", arg: 1, scope: !148, file: !2, line: 8, type: !132)
!152 = !DILocation(line: 8, column: 37, scope: !148)
!153 = !DILocalVariable(name: "file", arg: 2, scope: !148, file: !2, line: 8, type: !132)
!154 = !DILocation(line: 8, column: 60, scope: !148)
!155 = !DILocalVariable(name: "line", arg: 3, scope: !148, file: !2, line: 8, type: !29)
!156 = !DILocation(line: 8, column: 75, scope: !148)
!157 = !DILocalVariable(name: "function", arg: 4, scope: !148, file: !2, line: 8, type: !132)
!158 = !DILocation(line: 8, column: 93, scope: !148)
!159 = !DILocation(line: 9, column: 49, scope: !148)
!160 = !DILocation(line: 9, column: 55, scope: !148)
!161 = !DILocation(line: 9, column: 61, scope: !148)
!162 = !DILocation(line: 9, column: 71, scope: !148)
!163 = !DILocation(line: 9, column: 3, scope: !148)
!164 = !DILocation(line: 10, column: 3, scope: !148)
!165 = distinct !DISubprogram(name: "isdigit", scope: !10, file: !10, line: 14, type: !166, scopeLine: 14, flags: DIFlagPrototyped, spFlags: DISPFlagDefinition, unit: !17, retainedNodes: !137)
!166 = !DISubroutineType(types: !167)
!167 = !{!20, !20}
!168 = !DILocalVariable(name: "c", arg: 1, scope: !165, file: !10, line: 14, type: !20)
!169 = !DILocation(line: 14, column: 22, scope: !165)
!170 = !DILocation(line: 14, column: 42, scope: !165)
!171 = !DILocation(line: 14, column: 34, scope: !165)
!172 = !DILocation(line: 14, column: 27, scope: !165)
!173 = distinct !DISubprogram(name: "between", scope: !10, file: !10, line: 10, type: !174, scopeLine: 10, flags: DIFlagPrototyped, spFlags: DISPFlagLocalToUnit | DISPFlagDefinition, unit: !17, retainedNodes: !137)
!174 = !DISubroutineType(types: !175)
!175 = !{!20, !20, !29, !29}
!176 = !DILocalVariable(name: "c", arg: 1, scope: !173, file: !10, line: 10, type: !20)
!177 = !DILocation(line: 10, column: 24, scope: !173)
!178 = !DILocalVariable(name: "first", arg: 2, scope: !173, file: !10, line: 10, type: !29)
!179 = !DILocation(line: 10, column: 36, scope: !173)
!180 = !DILocalVariable(name: "last", arg: 3, scope: !173, file: !10, line: 10, type: !29)
!181 = !DILocation(line: 10, column: 52, scope: !173)
!182 = !DILocation(line: 10, column: 77, scope: !173)
!183 = !DILocation(line: 10, column: 81, scope: !173)
!184 = !DILocation(line: 10, column: 79, scope: !173)
!185 = !DILocation(line: 10, column: 90, scope: !173)
!186 = !DILocation(line: 10, column: 97, scope: !173)
!187 = !DILocation(line: 10, column: 95, scope: !173)
!188 = !DILocation(line: 10, column: 87, scope: !173)
!189 = !DILocation(line: 10, column: 60, scope: !173)
!190 = distinct !DISubprogram(name: "isupper", scope: !10, file: !10, line: 15, type: !166, scopeLine: 15, flags: DIFlagPrototyped, spFlags: DISPFlagDefinition, unit: !17, retainedNodes: !137)
!191 = !DILocalVariable(name: "c", arg: 1, scope: !190, file: !10, line: 15, type: !20)
!192 = !DILocation(line: 15, column: 22, scope: !190)
!193 = !DILocation(line: 15, column: 42, scope: !190)
!194 = !DILocation(line: 15, column: 34, scope: !190)
!195 = !DILocation(line: 15, column: 27, scope: !190)
!196 = distinct !DISubprogram(name: "islower", scope: !10, file: !10, line: 16, type: !166, scopeLine: 16, flags: DIFlagPrototyped, spFlags: DISPFlagDefinition, unit: !17, retainedNodes: !137)
!197 = !DILocalVariable(name: "c", arg: 1, scope: !196, file: !10, line: 16, type: !20)
!198 = !DILocation(line: 16, column: 22, scope: !196)
!199 = !DILocation(line: 16, column: 42, scope: !196)
!200 = !DILocation(line: 16, column: 34, scope: !196)
!201 = !DILocation(line: 16, column: 27, scope: !196)
!202 = distinct !DISubprogram(name: "isalpha", scope: !10, file: !10, line: 17, type: !166, scopeLine: 17, flags: DIFlagPrototyped, spFlags: DISPFlagDefinition, unit: !17, retainedNodes: !137)
!203 = !DILocalVariable(name: "c", arg: 1, scope: !202, file: !10, line: 17, type: !20)
!204 = !DILocation(line: 17, column: 22, scope: !202)
!205 = !DILocation(line: 17, column: 44, scope: !202)
!206 = !DILocation(line: 17, column: 34, scope: !202)
!207 = !DILocation(line: 17, column: 27, scope: !202)
!208 = distinct !DISubprogram(name: "is_letter", scope: !10, file: !10, line: 12, type: !166, scopeLine: 12, flags: DIFlagPrototyped, spFlags: DISPFlagLocalToUnit | DISPFlagDefinition, unit: !17, retainedNodes: !137)
!209 = !DILocalVariable(name: "c", arg: 1, scope: !208, file: !10, line: 12, type: !20)
!210 = !DILocation(line: 12, column: 26, scope: !208)
!211 = !DILocation(line: 12, column: 46, scope: !208)
!212 = !DILocation(line: 12, column: 38, scope: !208)
!213 = !DILocation(line: 12, column: 69, scope: !208)
!214 = !DILocation(line: 12, column: 61, scope: !208)
!215 = !DILocation(line: 12, column: 59, scope: !208)
!216 = !DILocation(line: 12, column: 31, scope: !208)
!217 = distinct !DISubprogram(name: "isalnum", scope: !10, file: !10, line: 18, type: !166, scopeLine: 18, flags: DIFlagPrototyped, spFlags: DISPFlagDefinition, unit: !17, retainedNodes: !137)
!218 = !DILocalVariable(name: "c", arg: 1, scope: !217, file: !10, line: 18, type: !20)
!219 = !DILocation(line: 18, column: 22, scope: !217)
!220 = !DILocation(line: 18, column: 44, scope: !217)
!221 = !DILocation(line: 18, column: 34, scope: !217)
!222 = !DILocation(line: 18, column: 57, scope: !217)
!223 = !DILocation(line: 18, column: 49, scope: !217)
!224 = !DILocation(line: 18, column: 47, scope: !217)
!225 = !DILocation(line: 18, column: 27, scope: !217)
!226 = distinct !DISubprogram(name: "isxdigit", scope: !10, file: !10, line: 19, type: !166, scopeLine: 19, flags: DIFlagPrototyped, spFlags: DISPFlagDefinition, unit: !17, retainedNodes: !137)
!227 = !DILocalVariable(name: "c", arg: 1, scope: !226, file: !10, line: 19, type: !20)
!228 = !DILocation(line: 19, column: 23, scope: !226)
!229 = !DILocation(line: 19, column: 43, scope: !226)
!230 = !DILocation(line: 19, column: 35, scope: !226)
!231 = !DILocation(line: 19, column: 66, scope: !226)
!232 = !DILocation(line: 19, column: 58, scope: !226)
!233 = !DILocation(line: 19, column: 56, scope: !226)
!234 = !DILocation(line: 19, column: 89, scope: !226)
!235 = !DILocation(line: 19, column: 81, scope: !226)
!236 = !DILocation(line: 19, column: 79, scope: !226)
!237 = !DILocation(line: 19, column: 28, scope: !226)
!238 = distinct !DISubprogram(name: "isblank", scope: !10, file: !10, line: 20, type: !166, scopeLine: 20, flags: DIFlagPrototyped, spFlags: DISPFlagDefinition, unit: !17, retainedNodes: !137)
!239 = !DILocalVariable(name: "c", arg: 1, scope: !238, file: !10, line: 20, type: !20)
!240 = !DILocation(line: 20, column: 22, scope: !238)
!241 = !DILocation(line: 20, column: 35, scope: !238)
!242 = !DILocation(line: 20, column: 37, scope: !238)
!243 = !DILocation(line: 20, column: 48, scope: !238)
!244 = !DILocation(line: 20, column: 50, scope: !238)
!245 = !DILocation(line: 20, column: 45, scope: !238)
!246 = !DILocation(line: 20, column: 27, scope: !238)
!247 = distinct !DISubprogram(name: "isspace", scope: !10, file: !10, line: 21, type: !166, scopeLine: 21, flags: DIFlagPrototyped, spFlags: DISPFlagDefinition, unit: !17, retainedNodes: !137)
!248 = !DILocalVariable(name: "c", arg: 1, scope: !247, file: !10, line: 21, type: !20)
!249 = !DILocation(line: 21, column: 22, scope: !247)
!250 = !DILocation(line: 21, column: 35, scope: !247)
!251 = !DILocation(line: 21, column: 37, scope: !247)
!252 = !DILocation(line: 21, column: 55, scope: !247)
!253 = !DILocation(line: 21, column: 47, scope: !247)
!254 = !DILocation(line: 21, column: 45, scope: !247)
!255 = !DILocation(line: 21, column: 27, scope: !247)
!256 = distinct !DISubprogram(name: "iscntrl", scope: !10, file: !10, line: 22, type: !166, scopeLine: 22, flags: DIFlagPrototyped, spFlags: DISPFlagDefinition, unit: !17, retainedNodes: !137)
!257 = !DILocalVariable(name: "c", arg: 1, scope: !256, file: !10, line: 22, type: !20)
!258 = !DILocation(line: 22, column: 22, scope: !256)
!259 = !DILocation(line: 22, column: 42, scope: !256)
!260 = !DILocation(line: 22, column: 34, scope: !256)
!261 = !DILocation(line: 22, column: 55, scope: !256)
!262 = !DILocation(line: 22, column: 57, scope: !256)
!263 = !DILocation(line: 22, column: 52, scope: !256)
!264 = !DILocation(line: 22, column: 27, scope: !256)
!265 = distinct !DISubprogram(name: "isprint", scope: !10, file: !10, line: 23, type: !166, scopeLine: 23, flags: DIFlagPrototyped, spFlags: DISPFlagDefinition, unit: !17, retainedNodes: !137)
!266 = !DILocalVariable(name: "c", arg: 1, scope: !265, file: !10, line: 23, type: !20)
!267 = !DILocation(line: 23, column: 22, scope: !265)
!268 = !DILocation(line: 23, column: 42, scope: !265)
!269 = !DILocation(line: 23, column: 34, scope: !265)
!270 = !DILocation(line: 23, column: 27, scope: !265)
!271 = distinct !DISubprogram(name: "isgraph", scope: !10, file: !10, line: 24, type: !166, scopeLine: 24, flags: DIFlagPrototyped, spFlags: DISPFlagDefinition, unit: !17, retainedNodes: !137)
!272 = !DILocalVariable(name: "c", arg: 1, scope: !271, file: !10, line: 24, type: !20)
!273 = !DILocation(line: 24, column: 22, scope: !271)
!274 = !DILocation(line: 24, column: 42, scope: !271)
!275 = !DILocation(line: 24, column: 34, scope: !271)
!276 = !DILocation(line: 24, column: 27, scope: !271)
!277 = distinct !DISubprogram(name: "ispunct", scope: !10, file: !10, line: 25, type: !166, scopeLine: 25, flags: DIFlagPrototyped, spFlags: DISPFlagDefinition, unit: !17, retainedNodes: !137)
!278 = !DILocalVariable(name: "c", arg: 1, scope: !277, file: !10, line: 25, type: !20)
!279 = !DILocation(line: 25, column: 22, scope: !277)
!280 = !DILocation(line: 26, column: 18, scope: !277)
!281 = !DILocation(line: 26, column: 10, scope: !277)
!282 = !DILocation(line: 26, column: 41, scope: !277)
!283 = !DILocation(line: 26, column: 33, scope: !277)
!284 = !DILocation(line: 26, column: 31, scope: !277)
!285 = !DILocation(line: 26, column: 64, scope: !277)
!286 = !DILocation(line: 26, column: 56, scope: !277)
!287 = !DILocation(line: 26, column: 54, scope: !277)
!288 = !DILocation(line: 26, column: 87, scope: !277)
!289 = !DILocation(line: 26, column: 79, scope: !277)
!290 = !DILocation(line: 26, column: 77, scope: !277)
!291 = !DILocation(line: 26, column: 3, scope: !277)
!292 = distinct !DISubprogram(name: "tolower", scope: !10, file: !10, line: 30, type: !166, scopeLine: 30, flags: DIFlagPrototyped, spFlags: DISPFlagDefinition, unit: !17, retainedNodes: !137)
!293 = !DILocalVariable(name: "c", arg: 1, scope: !292, file: !10, line: 30, type: !20)
!294 = !DILocation(line: 30, column: 22, scope: !292)
!295 = !DILocation(line: 30, column: 34, scope: !292)
!296 = !DILocation(line: 30, column: 46, scope: !292)
!297 = !DILocation(line: 30, column: 38, scope: !292)
!298 = !DILocation(line: 30, column: 59, scope: !292)
!299 = !DILocation(line: 30, column: 36, scope: !292)
!300 = !DILocation(line: 30, column: 27, scope: !292)
!301 = distinct !DISubprogram(name: "toupper", scope: !10, file: !10, line: 31, type: !166, scopeLine: 31, flags: DIFlagPrototyped, spFlags: DISPFlagDefinition, unit: !17, retainedNodes: !137)
!302 = !DILocalVariable(name: "c", arg: 1, scope: !301, file: !10, line: 31, type: !20)
!303 = !DILocation(line: 31, column: 22, scope: !301)
!304 = !DILocation(line: 31, column: 34, scope: !301)
!305 = !DILocation(line: 31, column: 48, scope: !301)
!306 = !DILocation(line: 31, column: 40, scope: !301)
!307 = !DILocation(line: 31, column: 61, scope: !301)
!308 = !DILocation(line: 31, column: 38, scope: !301)
!309 = !DILocation(line: 31, column: 36, scope: !301)
!310 = !DILocation(line: 31, column: 27, scope: !301)
!311 = !DILocation(line: 62, column: 9, scope: !9)
!312 = !DILocation(line: 63, column: 3, scope: !9)
!313 = !DILocation(line: 8, column: 3, scope: !38)
!314 = distinct !DISubprogram(name: "fputc", scope: !48, file: !48, line: 14, type: !315, scopeLine: 14, flags: DIFlagPrototyped, spFlags: DISPFlagDefinition, unit: !47, retainedNodes: !137)
!315 = !DISubroutineType(types: !316)
!316 = !{!20, !20, !54}
!317 = !DILocalVariable(name: "c", arg: 1, scope: !314, file: !48, line: 14, type: !20)
!318 = !DILocation(line: 14, column: 20, scope: !314)
!319 = !DILocalVariable(name: "stream", arg: 2, scope: !314, file: !48, line: 14, type: !54)
!320 = !DILocation(line: 14, column: 29, scope: !314)
!321 = !DILocation(line: 14, column: 50, scope: !314)
!322 = !DILocation(line: 14, column: 53, scope: !314)
!323 = !DILocation(line: 14, column: 46, scope: !314)
!324 = !DILocation(line: 14, column: 39, scope: !314)
!325 = distinct !DISubprogram(name: "put", scope: !48, file: !48, line: 12, type: !315, scopeLine: 12, flags: DIFlagPrototyped, spFlags: DISPFlagLocalToUnit | DISPFlagDefinition, unit: !47, retainedNodes: !137)
!326 = !DILocalVariable(name: "c", arg: 1, scope: !325, file: !48, line: 12, type: !20)
!327 = !DILocation(line: 12, column: 20, scope: !325)
!328 = !DILocalVariable(name: "stream", arg: 2, scope: !325, file: !48, line: 12, type: !54)
!329 = !DILocation(line: 12, column: 29, scope: !325)
!330 = !DILocation(line: 12, column: 46, scope: !325)
!331 = !DILocation(line: 12, column: 56, scope: !325)
!332 = !DILocation(line: 12, column: 53, scope: !325)
!333 = !DILocation(line: 12, column: 73, scope: !325)
!334 = !DILocation(line: 12, column: 65, scope: !325)
!335 = !DILocation(line: 12, column: 93, scope: !325)
!336 = !DILocation(line: 12, column: 78, scope: !325)
!337 = !DILocation(line: 12, column: 39, scope: !325)
!338 = distinct !DISubprogram(name: "putc", scope: !48, file: !48, line: 15, type: !315, scopeLine: 15, flags: DIFlagPrototyped, spFlags: DISPFlagDefinition, unit: !47, retainedNodes: !137)
!339 = !DILocalVariable(name: "c", arg: 1, scope: !338, file: !48, line: 15, type: !20)
!340 = !DILocation(line: 15, column: 19, scope: !338)
!341 = !DILocalVariable(name: "stream", arg: 2, scope: !338, file: !48, line: 15, type: !54)
!342 = !DILocation(line: 15, column: 28, scope: !338)
!343 = !DILocation(line: 15, column: 49, scope: !338)
!344 = !DILocation(line: 15, column: 52, scope: !338)
!345 = !DILocation(line: 15, column: 45, scope: !338)
!346 = !DILocation(line: 15, column: 38, scope: !338)
!347 = distinct !DISubprogram(name: "fputs", scope: !48, file: !48, line: 17, type: !348, scopeLine: 17, flags: DIFlagPrototyped, spFlags: DISPFlagDefinition, unit: !47, retainedNodes: !137)
!348 = !DISubroutineType(types: !349)
!349 = !{!20, !131, !350}
!350 = !DIDerivedType(tag: DW_TAG_restrict_type, baseType: !54)
!351 = !DILocalVariable(name: "text", arg: 1, scope: !347, file: !48, line: 17, type: !131)
!352 = !DILocation(line: 17, column: 37, scope: !347)
!353 = !DILocalVariable(name: "stream", arg: 2, scope: !347, file: !48, line: 17, type: !350)
!354 = !DILocation(line: 17, column: 58, scope: !347)
!355 = !DILocation(line: 18, column: 3, scope: !347)
!356 = !DILocation(line: 18, column: 11, scope: !357)
!357 = distinct !DILexicalBlock(scope: !358, file: !48, line: 18, column: 3)
!358 = distinct !DILexicalBlock(scope: !347, file: !48, line: 18, column: 3)
!359 = !DILocation(line: 18, column: 10, scope: !357)
!360 = !DILocation(line: 18, column: 3, scope: !358)
!361 = !DILocation(line: 19, column: 10, scope: !357)
!362 = !DILocation(line: 19, column: 9, scope: !357)
!363 = !DILocation(line: 19, column: 16, scope: !357)
!364 = !DILocation(line: 19, column: 5, scope: !357)
!365 = !DILocation(line: 18, column: 21, scope: !357)
!366 = !DILocation(line: 18, column: 3, scope: !357)
!367 = distinct !{!367, !360, !368, !369}
!368 = !DILocation(line: 19, column: 22, scope: !358)
!369 = !{!"llvm.loop.mustprogress"}
!370 = !DILocation(line: 20, column: 3, scope: !347)
!371 = distinct !DISubprogram(name: "abs", scope: !121, file: !121, line: 8, type: !166, scopeLine: 8, flags: DIFlagPrototyped, spFlags: DISPFlagDefinition, unit: !120, retainedNodes: !137)
!372 = !DILocalVariable(name: "number", arg: 1, scope: !371, file: !121, line: 8, type: !20)
!373 = !DILocation(line: 8, column: 18, scope: !371)
!374 = !DILocation(line: 8, column: 35, scope: !371)
!375 = !DILocation(line: 8, column: 42, scope: !371)
!376 = !DILocation(line: 8, column: 49, scope: !371)
!377 = !DILocation(line: 8, column: 48, scope: !371)
!378 = !DILocation(line: 8, column: 58, scope: !371)
!379 = !DILocation(line: 8, column: 28, scope: !371)
!380 = distinct !DISubprogram(name: "labs", scope: !121, file: !121, line: 9, type: !381, scopeLine: 9, flags: DIFlagPrototyped, spFlags: DISPFlagDefinition, unit: !120, retainedNodes: !137)
!381 = !DISubroutineType(types: !382)
!382 = !{!83, !83}
!383 = !DILocalVariable(name: "number", arg: 1, scope: !380, file: !121, line: 9, type: !83)
!384 = !DILocation(line: 9, column: 21, scope: !380)
!385 = !DILocation(line: 9, column: 38, scope: !380)
!386 = !DILocation(line: 9, column: 45, scope: !380)
!387 = !DILocation(line: 9, column: 52, scope: !380)
!388 = !DILocation(line: 9, column: 51, scope: !380)
!389 = !DILocation(line: 9, column: 61, scope: !380)
!390 = !DILocation(line: 9, column: 31, scope: !380)
!391 = distinct !DISubprogram(name: "llabs", scope: !121, file: !121, line: 10, type: !392, scopeLine: 10, flags: DIFlagPrototyped, spFlags: DISPFlagDefinition, unit: !120, retainedNodes: !137)
!392 = !DISubroutineType(types: !393)
!393 = !{!394, !394}
!394 = !DIBasicType(name: "long long", size: 64, encoding: DW_ATE_signed)
!395 = !DILocalVariable(name: "number", arg: 1, scope: !391, file: !121, line: 10, type: !394)
!396 = !DILocation(line: 10, column: 32, scope: !391)
!397 = !DILocation(line: 10, column: 49, scope: !391)
!398 = !DILocation(line: 10, column: 56, scope: !391)
!399 = !DILocation(line: 10, column: 63, scope: !391)
!400 = !DILocation(line: 10, column: 62, scope: !391)
!401 = !DILocation(line: 10, column: 72, scope: !391)
!402 = !DILocation(line: 10, column: 42, scope: !391)
!403 = distinct !DISubprogram(name: "strtol", scope: !121, file: !121, line: 96, type: !404, scopeLine: 96, flags: DIFlagPrototyped, spFlags: DISPFlagDefinition, unit: !120, retainedNodes: !137)
!404 = !DISubroutineType(types: !405)
!405 = !{!83, !131, !406, !20}
!406 = !DIDerivedType(tag: DW_TAG_restrict_type, baseType: !407)
!407 = !DIDerivedType(tag: DW_TAG_pointer_type, baseType: !62, size: 64)
!408 = !DILocalVariable(name: "text", arg: 1, scope: !403, file: !121, line: 96, type: !131)
!409 = !DILocation(line: 96, column: 39, scope: !403)
!410 = !DILocalVariable(name: "end", arg: 2, scope: !403, file: !121, line: 96, type: !406)
!411 = !DILocation(line: 96, column: 61, scope: !403)
!412 = !DILocalVariable(name: "base", arg: 3, scope: !403, file: !121, line: 96, type: !20)
!413 = !DILocation(line: 96, column: 70, scope: !403)
!414 = !DILocation(line: 96, column: 95, scope: !403)
!415 = !DILocation(line: 96, column: 101, scope: !403)
!416 = !DILocation(line: 96, column: 106, scope: !403)
!417 = !DILocation(line: 96, column: 85, scope: !403)
!418 = !DILocation(line: 96, column: 78, scope: !403)
!419 = distinct !DISubprogram(name: "to_signed", scope: !121, file: !121, line: 70, type: !420, scopeLine: 70, flags: DIFlagPrototyped, spFlags: DISPFlagLocalToUnit | DISPFlagDefinition, unit: !120, retainedNodes: !137)
!420 = !DISubroutineType(types: !421)
!421 = !{!83, !132, !407, !20}
!422 = !DILocalVariable(name: "text", arg: 1, scope: !419, file: !121, line: 70, type: !132)
!423 = !DILocation(line: 70, column: 35, scope: !419)
!424 = !DILocalVariable(name: "end", arg: 2, scope: !419, file: !121, line: 70, type: !407)
!425 = !DILocation(line: 70, column: 48, scope: !419)
!426 = !DILocalVariable(name: "base", arg: 3, scope: !419, file: !121, line: 70, type: !20)
!427 = !DILocation(line: 70, column: 57, scope: !419)
!428 = !DILocalVariable(name: "number", scope: !419, file: !121, line: 71, type: !429)
!429 = distinct !DICompositeType(tag: DW_TAG_structure_type, name: "number", file: !121, line: 15, size: 192, elements: !430)
!430 = !{!431, !432, !433, !434}
!431 = !DIDerivedType(tag: DW_TAG_member, name: "magnitude", scope: !429, file: !121, line: 16, baseType: !108, size: 64)
!432 = !DIDerivedType(tag: DW_TAG_member, name: "is_negative", scope: !429, file: !121, line: 17, baseType: !20, size: 32, offset: 64)
!433 = !DIDerivedType(tag: DW_TAG_member, name: "is_too_large", scope: !429, file: !121, line: 18, baseType: !20, size: 32, offset: 96)
!434 = !DIDerivedType(tag: DW_TAG_member, name: "end", scope: !429, file: !121, line: 19, baseType: !132, size: 64, offset: 128)
!435 = !DILocation(line: 71, column: 17, scope: !419)
!436 = !DILocation(line: 72, column: 15, scope: !419)
!437 = !DILocation(line: 72, column: 21, scope: !419)
!438 = !DILocation(line: 72, column: 3, scope: !419)
!439 = !DILocation(line: 73, column: 7, scope: !440)
!440 = distinct !DILexicalBlock(scope: !419, file: !121, line: 73, column: 7)
!441 = !DILocation(line: 73, column: 7, scope: !419)
!442 = !DILocation(line: 74, column: 27, scope: !440)
!443 = !DILocation(line: 74, column: 6, scope: !440)
!444 = !DILocation(line: 74, column: 10, scope: !440)
!445 = !DILocation(line: 74, column: 5, scope: !440)
!446 = !DILocalVariable(name: "most", scope: !419, file: !121, line: 75, type: !108)
!447 = !DILocation(line: 75, column: 17, scope: !419)
!448 = !DILocation(line: 75, column: 31, scope: !419)
!449 = !DILocation(line: 75, column: 24, scope: !419)
!450 = !DILocation(line: 76, column: 14, scope: !451)
!451 = distinct !DILexicalBlock(scope: !419, file: !121, line: 76, column: 7)
!452 = !DILocation(line: 76, column: 26, scope: !451)
!453 = !DILocation(line: 76, column: 24, scope: !451)
!454 = !DILocation(line: 76, column: 7, scope: !419)
!455 = !DILocation(line: 77, column: 5, scope: !456)
!456 = distinct !DILexicalBlock(scope: !451, file: !121, line: 76, column: 32)
!457 = !DILocation(line: 77, column: 11, scope: !456)
!458 = !DILocation(line: 78, column: 24, scope: !456)
!459 = !DILocation(line: 78, column: 12, scope: !456)
!460 = !DILocation(line: 78, column: 22, scope: !456)
!461 = !DILocation(line: 79, column: 3, scope: !456)
!462 = !DILocation(line: 80, column: 17, scope: !419)
!463 = !DILocation(line: 80, column: 10, scope: !419)
!464 = !DILocation(line: 80, column: 39, scope: !419)
!465 = !DILocation(line: 80, column: 31, scope: !419)
!466 = !DILocation(line: 80, column: 58, scope: !419)
!467 = !DILocation(line: 80, column: 3, scope: !419)
!468 = distinct !DISubprogram(name: "read_number", scope: !121, file: !121, line: 49, type: !469, scopeLine: 49, flags: DIFlagPrototyped, spFlags: DISPFlagLocalToUnit | DISPFlagDefinition, unit: !120, retainedNodes: !137)
!469 = !DISubroutineType(types: !470)
!470 = !{!471, !132, !20, !471}
!471 = !DIDerivedType(tag: DW_TAG_pointer_type, baseType: !429, size: 64)
!472 = !DILocalVariable(name: "text", arg: 1, scope: !468, file: !121, line: 49, type: !132)
!473 = !DILocation(line: 49, column: 47, scope: !468)
!474 = !DILocalVariable(name: "base", arg: 2, scope: !468, file: !121, line: 49, type: !20)
!475 = !DILocation(line: 49, column: 57, scope: !468)
!476 = !DILocalVariable(name: "number", arg: 3, scope: !468, file: !121, line: 49, type: !471)
!477 = !DILocation(line: 49, column: 78, scope: !468)
!478 = !DILocation(line: 50, column: 4, scope: !468)
!479 = !DILocation(line: 50, column: 28, scope: !468)
!480 = !DILocation(line: 50, column: 36, scope: !468)
!481 = !DILocation(line: 50, column: 13, scope: !468)
!482 = !DILocation(line: 51, column: 7, scope: !483)
!483 = distinct !DILexicalBlock(scope: !468, file: !121, line: 51, column: 7)
!484 = !DILocation(line: 51, column: 12, scope: !483)
!485 = !DILocation(line: 51, column: 16, scope: !483)
!486 = !DILocation(line: 51, column: 19, scope: !483)
!487 = !DILocation(line: 51, column: 24, scope: !483)
!488 = !DILocation(line: 51, column: 29, scope: !483)
!489 = !DILocation(line: 51, column: 32, scope: !483)
!490 = !DILocation(line: 51, column: 37, scope: !483)
!491 = !DILocation(line: 51, column: 7, scope: !468)
!492 = !DILocation(line: 52, column: 5, scope: !493)
!493 = distinct !DILexicalBlock(scope: !483, file: !121, line: 51, column: 43)
!494 = !DILocation(line: 52, column: 11, scope: !493)
!495 = !DILocation(line: 53, column: 12, scope: !493)
!496 = !DILocation(line: 53, column: 5, scope: !493)
!497 = !DILocation(line: 55, column: 3, scope: !468)
!498 = !DILocation(line: 55, column: 20, scope: !468)
!499 = !DILocation(line: 55, column: 19, scope: !468)
!500 = !DILocation(line: 55, column: 10, scope: !468)
!501 = !DILocation(line: 56, column: 9, scope: !468)
!502 = distinct !{!502, !497, !501, !369}
!503 = !DILocation(line: 57, column: 26, scope: !468)
!504 = !DILocation(line: 57, column: 25, scope: !468)
!505 = !DILocation(line: 57, column: 31, scope: !468)
!506 = !DILocation(line: 57, column: 3, scope: !468)
!507 = !DILocation(line: 57, column: 11, scope: !468)
!508 = !DILocation(line: 57, column: 23, scope: !468)
!509 = !DILocation(line: 58, column: 8, scope: !510)
!510 = distinct !DILexicalBlock(scope: !468, file: !121, line: 58, column: 7)
!511 = !DILocation(line: 58, column: 7, scope: !510)
!512 = !DILocation(line: 58, column: 13, scope: !510)
!513 = !DILocation(line: 58, column: 20, scope: !510)
!514 = !DILocation(line: 58, column: 24, scope: !510)
!515 = !DILocation(line: 58, column: 23, scope: !510)
!516 = !DILocation(line: 58, column: 29, scope: !510)
!517 = !DILocation(line: 58, column: 7, scope: !468)
!518 = !DILocation(line: 59, column: 9, scope: !510)
!519 = !DILocation(line: 59, column: 5, scope: !510)
!520 = !DILocation(line: 60, column: 8, scope: !521)
!521 = distinct !DILexicalBlock(scope: !468, file: !121, line: 60, column: 7)
!522 = !DILocation(line: 60, column: 13, scope: !521)
!523 = !DILocation(line: 60, column: 18, scope: !521)
!524 = !DILocation(line: 60, column: 21, scope: !521)
!525 = !DILocation(line: 60, column: 26, scope: !521)
!526 = !DILocation(line: 60, column: 33, scope: !521)
!527 = !DILocation(line: 60, column: 47, scope: !521)
!528 = !DILocation(line: 60, column: 36, scope: !521)
!529 = !DILocation(line: 60, column: 7, scope: !468)
!530 = !DILocation(line: 61, column: 10, scope: !531)
!531 = distinct !DILexicalBlock(scope: !521, file: !121, line: 60, column: 54)
!532 = !DILocation(line: 62, column: 10, scope: !531)
!533 = !DILocation(line: 63, column: 3, scope: !531)
!534 = !DILocation(line: 63, column: 14, scope: !535)
!535 = distinct !DILexicalBlock(scope: !521, file: !121, line: 63, column: 14)
!536 = !DILocation(line: 63, column: 19, scope: !535)
!537 = !DILocation(line: 63, column: 14, scope: !521)
!538 = !DILocation(line: 64, column: 13, scope: !539)
!539 = distinct !DILexicalBlock(scope: !535, file: !121, line: 63, column: 25)
!540 = !DILocation(line: 64, column: 12, scope: !539)
!541 = !DILocation(line: 64, column: 18, scope: !539)
!542 = !DILocation(line: 64, column: 10, scope: !539)
!543 = !DILocation(line: 65, column: 3, scope: !539)
!544 = !DILocation(line: 66, column: 15, scope: !468)
!545 = !DILocation(line: 66, column: 21, scope: !468)
!546 = !DILocation(line: 66, column: 27, scope: !468)
!547 = !DILocation(line: 66, column: 3, scope: !468)
!548 = !DILocation(line: 67, column: 10, scope: !468)
!549 = !DILocation(line: 67, column: 3, scope: !468)
!550 = !DILocation(line: 68, column: 1, scope: !468)
!551 = distinct !DISubprogram(name: "is_space", scope: !121, file: !121, line: 22, type: !552, scopeLine: 22, flags: DIFlagPrototyped, spFlags: DISPFlagLocalToUnit | DISPFlagDefinition, unit: !120, retainedNodes: !137)
!552 = !DISubroutineType(types: !553)
!553 = !{!20, !4}
!554 = !DILocalVariable(name: "c", arg: 1, scope: !551, file: !121, line: 22, type: !4)
!555 = !DILocation(line: 22, column: 26, scope: !551)
!556 = !DILocation(line: 22, column: 38, scope: !551)
!557 = !DILocation(line: 22, column: 40, scope: !551)
!558 = !DILocation(line: 22, column: 47, scope: !551)
!559 = !DILocation(line: 22, column: 51, scope: !551)
!560 = !DILocation(line: 22, column: 53, scope: !551)
!561 = !DILocation(line: 22, column: 61, scope: !551)
!562 = !DILocation(line: 22, column: 64, scope: !551)
!563 = !DILocation(line: 22, column: 66, scope: !551)
!564 = !DILocation(line: 0, scope: !551)
!565 = !DILocation(line: 22, column: 31, scope: !551)
!566 = distinct !DISubprogram(name: "has_prefix", scope: !121, file: !121, line: 35, type: !567, scopeLine: 35, flags: DIFlagPrototyped, spFlags: DISPFlagLocalToUnit | DISPFlagDefinition, unit: !120, retainedNodes: !137)
!567 = !DISubroutineType(types: !568)
!568 = !{!20, !132}
!569 = !DILocalVariable(name: "text", arg: 1, scope: !566, file: !121, line: 35, type: !132)
!570 = !DILocation(line: 35, column: 35, scope: !566)
!571 = !DILocation(line: 35, column: 50, scope: !566)
!572 = !DILocation(line: 35, column: 58, scope: !566)
!573 = !DILocation(line: 35, column: 65, scope: !566)
!574 = !DILocation(line: 35, column: 69, scope: !566)
!575 = !DILocation(line: 35, column: 77, scope: !566)
!576 = !DILocation(line: 35, column: 84, scope: !566)
!577 = !DILocation(line: 35, column: 87, scope: !566)
!578 = !DILocation(line: 35, column: 95, scope: !566)
!579 = !DILocation(line: 35, column: 103, scope: !566)
!580 = !DILocation(line: 35, column: 112, scope: !566)
!581 = !DILocation(line: 35, column: 106, scope: !566)
!582 = !DILocation(line: 35, column: 121, scope: !566)
!583 = !DILocation(line: 0, scope: !566)
!584 = !DILocation(line: 35, column: 43, scope: !566)
!585 = distinct !DISubprogram(name: "read_digits", scope: !121, file: !121, line: 37, type: !586, scopeLine: 37, flags: DIFlagPrototyped, spFlags: DISPFlagLocalToUnit | DISPFlagDefinition, unit: !120, retainedNodes: !137)
!586 = !DISubroutineType(types: !587)
!587 = !{null, !132, !29, !471}
!588 = !DILocalVariable(name: "text", arg: 1, scope: !585, file: !121, line: 37, type: !132)
!589 = !DILocation(line: 37, column: 37, scope: !585)
!590 = !DILocalVariable(name: "base", arg: 2, scope: !585, file: !121, line: 37, type: !29)
!591 = !DILocation(line: 37, column: 52, scope: !585)
!592 = !DILocalVariable(name: "number", arg: 3, scope: !585, file: !121, line: 37, type: !471)
!593 = !DILocation(line: 37, column: 73, scope: !585)
!594 = !DILocation(line: 38, column: 3, scope: !585)
!595 = !DILocation(line: 38, column: 17, scope: !596)
!596 = distinct !DILexicalBlock(scope: !597, file: !121, line: 38, column: 3)
!597 = distinct !DILexicalBlock(scope: !585, file: !121, line: 38, column: 3)
!598 = !DILocation(line: 38, column: 16, scope: !596)
!599 = !DILocation(line: 38, column: 10, scope: !596)
!600 = !DILocation(line: 38, column: 25, scope: !596)
!601 = !DILocation(line: 38, column: 23, scope: !596)
!602 = !DILocation(line: 38, column: 3, scope: !597)
!603 = !DILocalVariable(name: "next", scope: !604, file: !121, line: 39, type: !29)
!604 = distinct !DILexicalBlock(scope: !596, file: !121, line: 38, column: 39)
!605 = !DILocation(line: 39, column: 14, scope: !604)
!606 = !DILocation(line: 39, column: 28, scope: !604)
!607 = !DILocation(line: 39, column: 27, scope: !604)
!608 = !DILocation(line: 39, column: 21, scope: !604)
!609 = !DILocation(line: 40, column: 9, scope: !610)
!610 = distinct !DILexicalBlock(scope: !604, file: !121, line: 40, column: 9)
!611 = !DILocation(line: 40, column: 17, scope: !610)
!612 = !DILocation(line: 40, column: 42, scope: !610)
!613 = !DILocation(line: 40, column: 40, scope: !610)
!614 = !DILocation(line: 40, column: 50, scope: !610)
!615 = !DILocation(line: 40, column: 48, scope: !610)
!616 = !DILocation(line: 40, column: 27, scope: !610)
!617 = !DILocation(line: 40, column: 9, scope: !604)
!618 = !DILocation(line: 41, column: 7, scope: !610)
!619 = !DILocation(line: 41, column: 15, scope: !610)
!620 = !DILocation(line: 41, column: 28, scope: !610)
!621 = !DILocation(line: 42, column: 25, scope: !604)
!622 = !DILocation(line: 42, column: 33, scope: !604)
!623 = !DILocation(line: 42, column: 45, scope: !604)
!624 = !DILocation(line: 42, column: 43, scope: !604)
!625 = !DILocation(line: 42, column: 52, scope: !604)
!626 = !DILocation(line: 42, column: 50, scope: !604)
!627 = !DILocation(line: 42, column: 5, scope: !604)
!628 = !DILocation(line: 42, column: 13, scope: !604)
!629 = !DILocation(line: 42, column: 23, scope: !604)
!630 = !DILocation(line: 43, column: 19, scope: !604)
!631 = !DILocation(line: 43, column: 24, scope: !604)
!632 = !DILocation(line: 43, column: 5, scope: !604)
!633 = !DILocation(line: 43, column: 13, scope: !604)
!634 = !DILocation(line: 43, column: 17, scope: !604)
!635 = !DILocation(line: 44, column: 3, scope: !604)
!636 = !DILocation(line: 38, column: 35, scope: !596)
!637 = !DILocation(line: 38, column: 3, scope: !596)
!638 = distinct !{!638, !602, !639, !369}
!639 = !DILocation(line: 44, column: 3, scope: !597)
!640 = !DILocation(line: 45, column: 7, scope: !641)
!641 = distinct !DILexicalBlock(scope: !585, file: !121, line: 45, column: 7)
!642 = !DILocation(line: 45, column: 15, scope: !641)
!643 = !DILocation(line: 45, column: 7, scope: !585)
!644 = !DILocation(line: 46, column: 5, scope: !641)
!645 = !DILocation(line: 46, column: 13, scope: !641)
!646 = !DILocation(line: 46, column: 23, scope: !641)
!647 = !DILocation(line: 47, column: 1, scope: !585)
!648 = distinct !DISubprogram(name: "digit", scope: !121, file: !121, line: 25, type: !649, scopeLine: 25, flags: DIFlagPrototyped, spFlags: DISPFlagLocalToUnit | DISPFlagDefinition, unit: !120, retainedNodes: !137)
!649 = !DISubroutineType(types: !650)
!650 = !{!29, !4}
!651 = !DILocalVariable(name: "c", arg: 1, scope: !648, file: !121, line: 25, type: !4)
!652 = !DILocation(line: 25, column: 28, scope: !648)
!653 = !DILocation(line: 26, column: 7, scope: !654)
!654 = distinct !DILexicalBlock(scope: !648, file: !121, line: 26, column: 7)
!655 = !DILocation(line: 26, column: 9, scope: !654)
!656 = !DILocation(line: 26, column: 16, scope: !654)
!657 = !DILocation(line: 26, column: 19, scope: !654)
!658 = !DILocation(line: 26, column: 21, scope: !654)
!659 = !DILocation(line: 26, column: 7, scope: !648)
!660 = !DILocation(line: 27, column: 12, scope: !654)
!661 = !DILocation(line: 27, column: 14, scope: !654)
!662 = !DILocation(line: 27, column: 5, scope: !654)
!663 = !DILocation(line: 28, column: 7, scope: !664)
!664 = distinct !DILexicalBlock(scope: !648, file: !121, line: 28, column: 7)
!665 = !DILocation(line: 28, column: 9, scope: !664)
!666 = !DILocation(line: 28, column: 16, scope: !664)
!667 = !DILocation(line: 28, column: 19, scope: !664)
!668 = !DILocation(line: 28, column: 21, scope: !664)
!669 = !DILocation(line: 28, column: 7, scope: !648)
!670 = !DILocation(line: 29, column: 12, scope: !664)
!671 = !DILocation(line: 29, column: 14, scope: !664)
!672 = !DILocation(line: 29, column: 20, scope: !664)
!673 = !DILocation(line: 29, column: 5, scope: !664)
!674 = !DILocation(line: 30, column: 7, scope: !675)
!675 = distinct !DILexicalBlock(scope: !648, file: !121, line: 30, column: 7)
!676 = !DILocation(line: 30, column: 9, scope: !675)
!677 = !DILocation(line: 30, column: 16, scope: !675)
!678 = !DILocation(line: 30, column: 19, scope: !675)
!679 = !DILocation(line: 30, column: 21, scope: !675)
!680 = !DILocation(line: 30, column: 7, scope: !648)
!681 = !DILocation(line: 31, column: 12, scope: !675)
!682 = !DILocation(line: 31, column: 14, scope: !675)
!683 = !DILocation(line: 31, column: 20, scope: !675)
!684 = !DILocation(line: 31, column: 5, scope: !675)
!685 = !DILocation(line: 32, column: 3, scope: !648)
!686 = !DILocation(line: 33, column: 1, scope: !648)
!687 = distinct !DISubprogram(name: "strtoll", scope: !121, file: !121, line: 97, type: !688, scopeLine: 97, flags: DIFlagPrototyped, spFlags: DISPFlagDefinition, unit: !120, retainedNodes: !137)
!688 = !DISubroutineType(types: !689)
!689 = !{!394, !131, !406, !20}
!690 = !DILocalVariable(name: "text", arg: 1, scope: !687, file: !121, line: 97, type: !131)
!691 = !DILocation(line: 97, column: 45, scope: !687)
!692 = !DILocalVariable(name: "end", arg: 2, scope: !687, file: !121, line: 97, type: !406)
!693 = !DILocation(line: 97, column: 67, scope: !687)
!694 = !DILocalVariable(name: "base", arg: 3, scope: !687, file: !121, line: 97, type: !20)
!695 = !DILocation(line: 97, column: 76, scope: !687)
!696 = !DILocation(line: 97, column: 101, scope: !687)
!697 = !DILocation(line: 97, column: 107, scope: !687)
!698 = !DILocation(line: 97, column: 112, scope: !687)
!699 = !DILocation(line: 97, column: 91, scope: !687)
!700 = !DILocation(line: 97, column: 84, scope: !687)
!701 = distinct !DISubprogram(name: "strtoul", scope: !121, file: !121, line: 98, type: !702, scopeLine: 98, flags: DIFlagPrototyped, spFlags: DISPFlagDefinition, unit: !120, retainedNodes: !137)
!702 = !DISubroutineType(types: !703)
!703 = !{!108, !131, !406, !20}
!704 = !DILocalVariable(name: "text", arg: 1, scope: !701, file: !121, line: 98, type: !131)
!705 = !DILocation(line: 98, column: 49, scope: !701)
!706 = !DILocalVariable(name: "end", arg: 2, scope: !701, file: !121, line: 98, type: !406)
!707 = !DILocation(line: 98, column: 71, scope: !701)
!708 = !DILocalVariable(name: "base", arg: 3, scope: !701, file: !121, line: 98, type: !20)
!709 = !DILocation(line: 98, column: 80, scope: !701)
!710 = !DILocation(line: 98, column: 107, scope: !701)
!711 = !DILocation(line: 98, column: 113, scope: !701)
!712 = !DILocation(line: 98, column: 118, scope: !701)
!713 = !DILocation(line: 98, column: 95, scope: !701)
!714 = !DILocation(line: 98, column: 88, scope: !701)
!715 = distinct !DISubprogram(name: "to_unsigned", scope: !121, file: !121, line: 83, type: !716, scopeLine: 83, flags: DIFlagPrototyped, spFlags: DISPFlagLocalToUnit | DISPFlagDefinition, unit: !120, retainedNodes: !137)
!716 = !DISubroutineType(types: !717)
!717 = !{!108, !132, !407, !20}
!718 = !DILocalVariable(name: "text", arg: 1, scope: !715, file: !121, line: 83, type: !132)
!719 = !DILocation(line: 83, column: 46, scope: !715)
!720 = !DILocalVariable(name: "end", arg: 2, scope: !715, file: !121, line: 83, type: !407)
!721 = !DILocation(line: 83, column: 59, scope: !715)
!722 = !DILocalVariable(name: "base", arg: 3, scope: !715, file: !121, line: 83, type: !20)
!723 = !DILocation(line: 83, column: 68, scope: !715)
!724 = !DILocalVariable(name: "number", scope: !715, file: !121, line: 84, type: !429)
!725 = !DILocation(line: 84, column: 17, scope: !715)
!726 = !DILocation(line: 85, column: 15, scope: !715)
!727 = !DILocation(line: 85, column: 21, scope: !715)
!728 = !DILocation(line: 85, column: 3, scope: !715)
!729 = !DILocation(line: 86, column: 7, scope: !730)
!730 = distinct !DILexicalBlock(scope: !715, file: !121, line: 86, column: 7)
!731 = !DILocation(line: 86, column: 7, scope: !715)
!732 = !DILocation(line: 87, column: 27, scope: !730)
!733 = !DILocation(line: 87, column: 6, scope: !730)
!734 = !DILocation(line: 87, column: 10, scope: !730)
!735 = !DILocation(line: 87, column: 5, scope: !730)
!736 = !DILocation(line: 88, column: 14, scope: !737)
!737 = distinct !DILexicalBlock(scope: !715, file: !121, line: 88, column: 7)
!738 = !DILocation(line: 88, column: 7, scope: !737)
!739 = !DILocation(line: 88, column: 7, scope: !715)
!740 = !DILocation(line: 89, column: 5, scope: !741)
!741 = distinct !DILexicalBlock(scope: !737, file: !121, line: 88, column: 28)
!742 = !DILocation(line: 89, column: 11, scope: !741)
!743 = !DILocation(line: 90, column: 5, scope: !741)
!744 = !DILocation(line: 92, column: 17, scope: !715)
!745 = !DILocation(line: 92, column: 10, scope: !715)
!746 = !DILocation(line: 92, column: 39, scope: !715)
!747 = !DILocation(line: 92, column: 31, scope: !715)
!748 = !DILocation(line: 92, column: 58, scope: !715)
!749 = !DILocation(line: 92, column: 3, scope: !715)
!750 = !DILocation(line: 93, column: 1, scope: !715)
!751 = distinct !DISubprogram(name: "strtoull", scope: !121, file: !121, line: 99, type: !752, scopeLine: 99, flags: DIFlagPrototyped, spFlags: DISPFlagDefinition, unit: !120, retainedNodes: !137)
!752 = !DISubroutineType(types: !753)
!753 = !{!754, !131, !406, !20}
!754 = !DIBasicType(name: "unsigned long long", size: 64, encoding: DW_ATE_unsigned)
!755 = !DILocalVariable(name: "text", arg: 1, scope: !751, file: !121, line: 99, type: !131)
!756 = !DILocation(line: 99, column: 55, scope: !751)
!757 = !DILocalVariable(name: "end", arg: 2, scope: !751, file: !121, line: 99, type: !406)
!758 = !DILocation(line: 99, column: 77, scope: !751)
!759 = !DILocalVariable(name: "base", arg: 3, scope: !751, file: !121, line: 99, type: !20)
!760 = !DILocation(line: 99, column: 86, scope: !751)
!761 = !DILocation(line: 99, column: 113, scope: !751)
!762 = !DILocation(line: 99, column: 119, scope: !751)
!763 = !DILocation(line: 99, column: 124, scope: !751)
!764 = !DILocation(line: 99, column: 101, scope: !751)
!765 = !DILocation(line: 99, column: 94, scope: !751)
!766 = distinct !DISubprogram(name: "atoi", scope: !121, file: !121, line: 100, type: !567, scopeLine: 100, flags: DIFlagPrototyped, spFlags: DISPFlagDefinition, unit: !120, retainedNodes: !137)
!767 = !DILocalVariable(name: "text", arg: 1, scope: !766, file: !121, line: 100, type: !132)
!768 = !DILocation(line: 100, column: 27, scope: !766)
!769 = !DILocation(line: 100, column: 57, scope: !766)
!770 = !DILocation(line: 100, column: 47, scope: !766)
!771 = !DILocation(line: 100, column: 42, scope: !766)
!772 = !DILocation(line: 100, column: 35, scope: !766)
!773 = distinct !DISubprogram(name: "atol", scope: !121, file: !121, line: 101, type: !774, scopeLine: 101, flags: DIFlagPrototyped, spFlags: DISPFlagDefinition, unit: !120, retainedNodes: !137)
!774 = !DISubroutineType(types: !775)
!775 = !{!83, !132}
!776 = !DILocalVariable(name: "text", arg: 1, scope: !773, file: !121, line: 101, type: !132)
!777 = !DILocation(line: 101, column: 28, scope: !773)
!778 = !DILocation(line: 101, column: 53, scope: !773)
!779 = !DILocation(line: 101, column: 43, scope: !773)
!780 = !DILocation(line: 101, column: 36, scope: !773)
!781 = distinct !DISubprogram(name: "atoll", scope: !121, file: !121, line: 102, type: !782, scopeLine: 102, flags: DIFlagPrototyped, spFlags: DISPFlagDefinition, unit: !120, retainedNodes: !137)
!782 = !DISubroutineType(types: !783)
!783 = !{!394, !132}
!784 = !DILocalVariable(name: "text", arg: 1, scope: !781, file: !121, line: 102, type: !132)
!785 = !DILocation(line: 102, column: 34, scope: !781)
!786 = !DILocation(line: 102, column: 59, scope: !781)
!787 = !DILocation(line: 102, column: 49, scope: !781)
!788 = !DILocation(line: 102, column: 42, scope: !781)
!789 = distinct !DISubprogram(name: "srand", scope: !121, file: !121, line: 108, type: !790, scopeLine: 108, flags: DIFlagPrototyped, spFlags: DISPFlagDefinition, unit: !120, retainedNodes: !137)
!790 = !DISubroutineType(types: !791)
!791 = !{null, !29}
!792 = !DILocalVariable(name: "seed", arg: 1, scope: !789, file: !121, line: 108, type: !29)
!793 = !DILocation(line: 108, column: 26, scope: !789)
!794 = !DILocation(line: 108, column: 49, scope: !789)
!795 = !DILocation(line: 108, column: 47, scope: !789)
!796 = !DILocation(line: 108, column: 55, scope: !789)
!797 = distinct !DISubprogram(name: "rand", scope: !121, file: !121, line: 111, type: !798, scopeLine: 111, flags: DIFlagPrototyped, spFlags: DISPFlagDefinition, unit: !120)
!798 = !DISubroutineType(types: !799)
!799 = !{!20}
!800 = !DILocation(line: 112, column: 18, scope: !797)
!801 = !DILocation(line: 112, column: 31, scope: !797)
!802 = !DILocation(line: 112, column: 53, scope: !797)
!803 = !DILocation(line: 112, column: 16, scope: !797)
!804 = !DILocation(line: 113, column: 16, scope: !797)
!805 = !DILocation(line: 113, column: 29, scope: !797)
!806 = !DILocation(line: 113, column: 10, scope: !797)
!807 = !DILocation(line: 113, column: 3, scope: !797)
!808 = distinct !DISubprogram(name: "strcpy", scope: !127, file: !127, line: 13, type: !128, scopeLine: 13, flags: DIFlagPrototyped, spFlags: DISPFlagDefinition, unit: !134, retainedNodes: !137)
!809 = !DILocalVariable(name: "to", arg: 1, scope: !808, file: !127, line: 13, type: !130)
!810 = !DILocation(line: 13, column: 34, scope: !808)
!811 = !DILocalVariable(name: "from", arg: 2, scope: !808, file: !127, line: 13, type: !131)
!812 = !DILocation(line: 13, column: 59, scope: !808)
!813 = !DILocalVariable(name: "k", scope: !808, file: !127, line: 14, type: !106)
!814 = !DILocation(line: 14, column: 10, scope: !808)
!815 = !DILocation(line: 15, column: 3, scope: !808)
!816 = !DILocation(line: 15, column: 19, scope: !808)
!817 = !DILocation(line: 15, column: 24, scope: !808)
!818 = !DILocation(line: 15, column: 11, scope: !808)
!819 = !DILocation(line: 15, column: 14, scope: !808)
!820 = !DILocation(line: 15, column: 17, scope: !808)
!821 = !DILocation(line: 16, column: 6, scope: !808)
!822 = distinct !{!822, !815, !821, !369}
!823 = !DILocation(line: 17, column: 10, scope: !808)
!824 = !DILocation(line: 17, column: 3, scope: !808)
!825 = distinct !DISubprogram(name: "stpcpy", scope: !127, file: !127, line: 20, type: !128, scopeLine: 20, flags: DIFlagPrototyped, spFlags: DISPFlagDefinition, unit: !134, retainedNodes: !137)
!826 = !DILocalVariable(name: "to", arg: 1, scope: !825, file: !127, line: 20, type: !130)
!827 = !DILocation(line: 20, column: 34, scope: !825)
!828 = !DILocalVariable(name: "from", arg: 2, scope: !825, file: !127, line: 20, type: !131)
!829 = !DILocation(line: 20, column: 59, scope: !825)
!830 = !DILocation(line: 21, column: 3, scope: !825)
!831 = !DILocation(line: 21, column: 18, scope: !832)
!832 = distinct !DILexicalBlock(scope: !833, file: !127, line: 21, column: 3)
!833 = distinct !DILexicalBlock(scope: !825, file: !127, line: 21, column: 3)
!834 = !DILocation(line: 21, column: 17, scope: !832)
!835 = !DILocation(line: 21, column: 12, scope: !832)
!836 = !DILocation(line: 21, column: 15, scope: !832)
!837 = !DILocation(line: 21, column: 3, scope: !833)
!838 = !DILocation(line: 22, column: 9, scope: !832)
!839 = !DILocation(line: 22, column: 5, scope: !832)
!840 = !DILocation(line: 21, column: 27, scope: !832)
!841 = !DILocation(line: 21, column: 3, scope: !832)
!842 = distinct !{!842, !837, !843, !369}
!843 = !DILocation(line: 22, column: 9, scope: !833)
!844 = !DILocation(line: 23, column: 10, scope: !825)
!845 = !DILocation(line: 23, column: 3, scope: !825)
!846 = distinct !DISubprogram(name: "strncpy", scope: !127, file: !127, line: 26, type: !847, scopeLine: 26, flags: DIFlagPrototyped, spFlags: DISPFlagDefinition, unit: !134, retainedNodes: !137)
!847 = !DISubroutineType(types: !848)
!848 = !{!62, !130, !131, !106}
!849 = !DILocalVariable(name: "to", arg: 1, scope: !846, file: !127, line: 26, type: !130)
!850 = !DILocation(line: 26, column: 35, scope: !846)
!851 = !DILocalVariable(name: "from", arg: 2, scope: !846, file: !127, line: 26, type: !131)
!852 = !DILocation(line: 26, column: 60, scope: !846)
!853 = !DILocalVariable(name: "size", arg: 3, scope: !846, file: !127, line: 26, type: !106)
!854 = !DILocation(line: 26, column: 73, scope: !846)
!855 = !DILocalVariable(name: "k", scope: !846, file: !127, line: 27, type: !106)
!856 = !DILocation(line: 27, column: 10, scope: !846)
!857 = !DILocation(line: 28, column: 3, scope: !846)
!858 = !DILocation(line: 28, column: 10, scope: !859)
!859 = distinct !DILexicalBlock(scope: !860, file: !127, line: 28, column: 3)
!860 = distinct !DILexicalBlock(scope: !846, file: !127, line: 28, column: 3)
!861 = !DILocation(line: 28, column: 14, scope: !859)
!862 = !DILocation(line: 28, column: 12, scope: !859)
!863 = !DILocation(line: 28, column: 19, scope: !859)
!864 = !DILocation(line: 28, column: 22, scope: !859)
!865 = !DILocation(line: 28, column: 27, scope: !859)
!866 = !DILocation(line: 0, scope: !859)
!867 = !DILocation(line: 28, column: 3, scope: !860)
!868 = !DILocation(line: 29, column: 13, scope: !859)
!869 = !DILocation(line: 29, column: 18, scope: !859)
!870 = !DILocation(line: 29, column: 5, scope: !859)
!871 = !DILocation(line: 29, column: 8, scope: !859)
!872 = !DILocation(line: 29, column: 11, scope: !859)
!873 = !DILocation(line: 28, column: 32, scope: !859)
!874 = !DILocation(line: 28, column: 3, scope: !859)
!875 = distinct !{!875, !867, !876, !369}
!876 = !DILocation(line: 29, column: 19, scope: !860)
!877 = !DILocation(line: 30, column: 3, scope: !846)
!878 = !DILocation(line: 30, column: 10, scope: !879)
!879 = distinct !DILexicalBlock(scope: !880, file: !127, line: 30, column: 3)
!880 = distinct !DILexicalBlock(scope: !846, file: !127, line: 30, column: 3)
!881 = !DILocation(line: 30, column: 14, scope: !879)
!882 = !DILocation(line: 30, column: 12, scope: !879)
!883 = !DILocation(line: 30, column: 3, scope: !880)
!884 = !DILocation(line: 31, column: 5, scope: !879)
!885 = !DILocation(line: 31, column: 8, scope: !879)
!886 = !DILocation(line: 31, column: 11, scope: !879)
!887 = !DILocation(line: 30, column: 21, scope: !879)
!888 = !DILocation(line: 30, column: 3, scope: !879)
!889 = distinct !{!889, !883, !890, !369}
!890 = !DILocation(line: 31, column: 13, scope: !880)
!891 = !DILocation(line: 32, column: 10, scope: !846)
!892 = !DILocation(line: 32, column: 3, scope: !846)
!893 = distinct !DISubprogram(name: "stpncpy", scope: !127, file: !127, line: 35, type: !847, scopeLine: 35, flags: DIFlagPrototyped, spFlags: DISPFlagDefinition, unit: !134, retainedNodes: !137)
!894 = !DILocalVariable(name: "to", arg: 1, scope: !893, file: !127, line: 35, type: !130)
!895 = !DILocation(line: 35, column: 35, scope: !893)
!896 = !DILocalVariable(name: "from", arg: 2, scope: !893, file: !127, line: 35, type: !131)
!897 = !DILocation(line: 35, column: 60, scope: !893)
!898 = !DILocalVariable(name: "size", arg: 3, scope: !893, file: !127, line: 35, type: !106)
!899 = !DILocation(line: 35, column: 73, scope: !893)
!900 = !DILocalVariable(name: "length", scope: !893, file: !127, line: 36, type: !106)
!901 = !DILocation(line: 36, column: 10, scope: !893)
!902 = !DILocation(line: 37, column: 3, scope: !893)
!903 = !DILocation(line: 37, column: 10, scope: !904)
!904 = distinct !DILexicalBlock(scope: !905, file: !127, line: 37, column: 3)
!905 = distinct !DILexicalBlock(scope: !893, file: !127, line: 37, column: 3)
!906 = !DILocation(line: 37, column: 19, scope: !904)
!907 = !DILocation(line: 37, column: 17, scope: !904)
!908 = !DILocation(line: 37, column: 24, scope: !904)
!909 = !DILocation(line: 37, column: 27, scope: !904)
!910 = !DILocation(line: 37, column: 32, scope: !904)
!911 = !DILocation(line: 0, scope: !904)
!912 = !DILocation(line: 37, column: 3, scope: !905)
!913 = !DILocation(line: 38, column: 18, scope: !904)
!914 = !DILocation(line: 38, column: 23, scope: !904)
!915 = !DILocation(line: 38, column: 5, scope: !904)
!916 = !DILocation(line: 38, column: 8, scope: !904)
!917 = !DILocation(line: 38, column: 16, scope: !904)
!918 = !DILocation(line: 37, column: 47, scope: !904)
!919 = !DILocation(line: 37, column: 3, scope: !904)
!920 = distinct !{!920, !912, !921, !369}
!921 = !DILocation(line: 38, column: 29, scope: !905)
!922 = !DILocalVariable(name: "k", scope: !923, file: !127, line: 39, type: !106)
!923 = distinct !DILexicalBlock(scope: !893, file: !127, line: 39, column: 3)
!924 = !DILocation(line: 39, column: 15, scope: !923)
!925 = !DILocation(line: 39, column: 19, scope: !923)
!926 = !DILocation(line: 39, column: 8, scope: !923)
!927 = !DILocation(line: 39, column: 27, scope: !928)
!928 = distinct !DILexicalBlock(scope: !923, file: !127, line: 39, column: 3)
!929 = !DILocation(line: 39, column: 31, scope: !928)
!930 = !DILocation(line: 39, column: 29, scope: !928)
!931 = !DILocation(line: 39, column: 3, scope: !923)
!932 = !DILocation(line: 40, column: 5, scope: !928)
!933 = !DILocation(line: 40, column: 8, scope: !928)
!934 = !DILocation(line: 40, column: 11, scope: !928)
!935 = !DILocation(line: 39, column: 38, scope: !928)
!936 = !DILocation(line: 39, column: 3, scope: !928)
!937 = distinct !{!937, !931, !938, !369}
!938 = !DILocation(line: 40, column: 13, scope: !923)
!939 = !DILocation(line: 41, column: 10, scope: !893)
!940 = !DILocation(line: 41, column: 15, scope: !893)
!941 = !DILocation(line: 41, column: 13, scope: !893)
!942 = !DILocation(line: 41, column: 3, scope: !893)
!943 = distinct !DISubprogram(name: "strcat", scope: !127, file: !127, line: 44, type: !128, scopeLine: 44, flags: DIFlagPrototyped, spFlags: DISPFlagDefinition, unit: !134, retainedNodes: !137)
!944 = !DILocalVariable(name: "to", arg: 1, scope: !943, file: !127, line: 44, type: !130)
!945 = !DILocation(line: 44, column: 34, scope: !943)
!946 = !DILocalVariable(name: "from", arg: 2, scope: !943, file: !127, line: 44, type: !131)
!947 = !DILocation(line: 44, column: 59, scope: !943)
!948 = !DILocalVariable(name: "end", scope: !943, file: !127, line: 45, type: !62)
!949 = !DILocation(line: 45, column: 9, scope: !943)
!950 = !DILocation(line: 45, column: 15, scope: !943)
!951 = !DILocation(line: 46, column: 3, scope: !943)
!952 = !DILocation(line: 46, column: 11, scope: !943)
!953 = !DILocation(line: 46, column: 10, scope: !943)
!954 = !DILocation(line: 47, column: 8, scope: !943)
!955 = distinct !{!955, !951, !954, !369}
!956 = !DILocation(line: 48, column: 3, scope: !943)
!957 = !DILocation(line: 48, column: 19, scope: !958)
!958 = distinct !DILexicalBlock(scope: !959, file: !127, line: 48, column: 3)
!959 = distinct !DILexicalBlock(scope: !943, file: !127, line: 48, column: 3)
!960 = !DILocation(line: 48, column: 18, scope: !958)
!961 = !DILocation(line: 48, column: 12, scope: !958)
!962 = !DILocation(line: 48, column: 16, scope: !958)
!963 = !DILocation(line: 48, column: 3, scope: !959)
!964 = !DILocation(line: 49, column: 9, scope: !958)
!965 = !DILocation(line: 49, column: 5, scope: !958)
!966 = !DILocation(line: 48, column: 29, scope: !958)
!967 = !DILocation(line: 48, column: 3, scope: !958)
!968 = distinct !{!968, !963, !969, !369}
!969 = !DILocation(line: 49, column: 9, scope: !959)
!970 = !DILocation(line: 50, column: 10, scope: !943)
!971 = !DILocation(line: 50, column: 3, scope: !943)
!972 = distinct !DISubprogram(name: "strncat", scope: !127, file: !127, line: 53, type: !847, scopeLine: 53, flags: DIFlagPrototyped, spFlags: DISPFlagDefinition, unit: !134, retainedNodes: !137)
!973 = !DILocalVariable(name: "to", arg: 1, scope: !972, file: !127, line: 53, type: !130)
!974 = !DILocation(line: 53, column: 35, scope: !972)
!975 = !DILocalVariable(name: "from", arg: 2, scope: !972, file: !127, line: 53, type: !131)
!976 = !DILocation(line: 53, column: 60, scope: !972)
!977 = !DILocalVariable(name: "most", arg: 3, scope: !972, file: !127, line: 53, type: !106)
!978 = !DILocation(line: 53, column: 73, scope: !972)
!979 = !DILocalVariable(name: "end", scope: !972, file: !127, line: 54, type: !62)
!980 = !DILocation(line: 54, column: 9, scope: !972)
!981 = !DILocation(line: 54, column: 15, scope: !972)
!982 = !DILocation(line: 55, column: 3, scope: !972)
!983 = !DILocation(line: 55, column: 11, scope: !972)
!984 = !DILocation(line: 55, column: 10, scope: !972)
!985 = !DILocation(line: 56, column: 8, scope: !972)
!986 = distinct !{!986, !982, !985, !369}
!987 = !DILocation(line: 57, column: 3, scope: !972)
!988 = !DILocation(line: 57, column: 10, scope: !989)
!989 = distinct !DILexicalBlock(scope: !990, file: !127, line: 57, column: 3)
!990 = distinct !DILexicalBlock(scope: !972, file: !127, line: 57, column: 3)
!991 = !DILocation(line: 57, column: 15, scope: !989)
!992 = !DILocation(line: 57, column: 19, scope: !989)
!993 = !DILocation(line: 57, column: 23, scope: !989)
!994 = !DILocation(line: 57, column: 22, scope: !989)
!995 = !DILocation(line: 0, scope: !989)
!996 = !DILocation(line: 57, column: 3, scope: !990)
!997 = !DILocation(line: 58, column: 19, scope: !989)
!998 = !DILocation(line: 58, column: 14, scope: !989)
!999 = !DILocation(line: 58, column: 9, scope: !989)
!1000 = !DILocation(line: 58, column: 12, scope: !989)
!1001 = !DILocation(line: 58, column: 5, scope: !989)
!1002 = !DILocation(line: 57, column: 33, scope: !989)
!1003 = !DILocation(line: 57, column: 3, scope: !989)
!1004 = distinct !{!1004, !996, !1005, !369}
!1005 = !DILocation(line: 58, column: 19, scope: !990)
!1006 = !DILocation(line: 59, column: 4, scope: !972)
!1007 = !DILocation(line: 59, column: 8, scope: !972)
!1008 = !DILocation(line: 60, column: 10, scope: !972)
!1009 = !DILocation(line: 60, column: 3, scope: !972)
!1010 = distinct !DISubprogram(name: "mempcpy", scope: !127, file: !127, line: 63, type: !1011, scopeLine: 63, flags: DIFlagPrototyped, spFlags: DISPFlagDefinition, unit: !134, retainedNodes: !137)
!1011 = !DISubroutineType(types: !1012)
!1012 = !{!104, !1013, !1014, !106}
!1013 = !DIDerivedType(tag: DW_TAG_restrict_type, baseType: !104)
!1014 = !DIDerivedType(tag: DW_TAG_restrict_type, baseType: !1015)
!1015 = !DIDerivedType(tag: DW_TAG_pointer_type, baseType: !1016, size: 64)
!1016 = !DIDerivedType(tag: DW_TAG_const_type, baseType: null)
!1017 = !DILocalVariable(name: "to", arg: 1, scope: !1010, file: !127, line: 63, type: !1013)
!1018 = !DILocation(line: 63, column: 35, scope: !1010)
!1019 = !DILocalVariable(name: "from", arg: 2, scope: !1010, file: !127, line: 63, type: !1014)
!1020 = !DILocation(line: 63, column: 60, scope: !1010)
!1021 = !DILocalVariable(name: "size", arg: 3, scope: !1010, file: !127, line: 63, type: !106)
!1022 = !DILocation(line: 63, column: 73, scope: !1010)
!1023 = !DILocation(line: 64, column: 10, scope: !1010)
!1024 = !DILocation(line: 64, column: 14, scope: !1010)
!1025 = !DILocation(line: 64, column: 20, scope: !1010)
!1026 = !DILocation(line: 64, column: 3, scope: !1010)
!1027 = !DILocation(line: 65, column: 18, scope: !1010)
!1028 = !DILocation(line: 65, column: 23, scope: !1010)
!1029 = !DILocation(line: 65, column: 21, scope: !1010)
!1030 = !DILocation(line: 65, column: 3, scope: !1010)
!1031 = distinct !DISubprogram(name: "memccpy", scope: !127, file: !127, line: 68, type: !1032, scopeLine: 68, flags: DIFlagPrototyped, spFlags: DISPFlagDefinition, unit: !134, retainedNodes: !137)
!1032 = !DISubroutineType(types: !1033)
!1033 = !{!104, !1013, !1014, !20, !106}
!1034 = !DILocalVariable(name: "to", arg: 1, scope: !1031, file: !127, line: 68, type: !1013)
!1035 = !DILocation(line: 68, column: 35, scope: !1031)
!1036 = !DILocalVariable(name: "from", arg: 2, scope: !1031, file: !127, line: 68, type: !1014)
!1037 = !DILocation(line: 68, column: 60, scope: !1031)
!1038 = !DILocalVariable(name: "last", arg: 3, scope: !1031, file: !127, line: 68, type: !20)
!1039 = !DILocation(line: 68, column: 70, scope: !1031)
!1040 = !DILocalVariable(name: "size", arg: 4, scope: !1031, file: !127, line: 68, type: !106)
!1041 = !DILocation(line: 68, column: 83, scope: !1031)
!1042 = !DILocalVariable(name: "target", scope: !1031, file: !127, line: 69, type: !62)
!1043 = !DILocation(line: 69, column: 9, scope: !1031)
!1044 = !DILocation(line: 69, column: 18, scope: !1031)
!1045 = !DILocalVariable(name: "source", scope: !1031, file: !127, line: 70, type: !132)
!1046 = !DILocation(line: 70, column: 15, scope: !1031)
!1047 = !DILocation(line: 70, column: 24, scope: !1031)
!1048 = !DILocation(line: 71, column: 3, scope: !1031)
!1049 = !DILocation(line: 71, column: 10, scope: !1050)
!1050 = distinct !DILexicalBlock(scope: !1051, file: !127, line: 71, column: 3)
!1051 = distinct !DILexicalBlock(scope: !1031, file: !127, line: 71, column: 3)
!1052 = !DILocation(line: 71, column: 15, scope: !1050)
!1053 = !DILocation(line: 71, column: 3, scope: !1051)
!1054 = !DILocation(line: 72, column: 29, scope: !1055)
!1055 = distinct !DILexicalBlock(scope: !1050, file: !127, line: 72, column: 9)
!1056 = !DILocation(line: 72, column: 22, scope: !1055)
!1057 = !DILocation(line: 72, column: 17, scope: !1055)
!1058 = !DILocation(line: 72, column: 20, scope: !1055)
!1059 = !DILocation(line: 72, column: 9, scope: !1055)
!1060 = !DILocation(line: 72, column: 42, scope: !1055)
!1061 = !DILocation(line: 72, column: 36, scope: !1055)
!1062 = !DILocation(line: 72, column: 33, scope: !1055)
!1063 = !DILocation(line: 72, column: 9, scope: !1050)
!1064 = !DILocation(line: 73, column: 14, scope: !1055)
!1065 = !DILocation(line: 73, column: 7, scope: !1055)
!1066 = !DILocation(line: 71, column: 24, scope: !1050)
!1067 = !DILocation(line: 71, column: 3, scope: !1050)
!1068 = distinct !{!1068, !1053, !1069, !369}
!1069 = !DILocation(line: 73, column: 14, scope: !1051)
!1070 = !DILocation(line: 74, column: 3, scope: !1031)
!1071 = !DILocation(line: 75, column: 1, scope: !1031)
!1072 = distinct !DISubprogram(name: "strdup", scope: !127, file: !127, line: 77, type: !1073, scopeLine: 77, flags: DIFlagPrototyped, spFlags: DISPFlagDefinition, unit: !134, retainedNodes: !137)
!1073 = !DISubroutineType(types: !1074)
!1074 = !{!62, !132}
!1075 = !DILocalVariable(name: "text", arg: 1, scope: !1072, file: !127, line: 77, type: !132)
!1076 = !DILocation(line: 77, column: 31, scope: !1072)
!1077 = !DILocalVariable(name: "length", scope: !1072, file: !127, line: 78, type: !106)
!1078 = !DILocation(line: 78, column: 10, scope: !1072)
!1079 = !DILocation(line: 79, column: 3, scope: !1072)
!1080 = !DILocation(line: 79, column: 10, scope: !1072)
!1081 = !DILocation(line: 79, column: 15, scope: !1072)
!1082 = !DILocation(line: 80, column: 11, scope: !1072)
!1083 = distinct !{!1083, !1079, !1082, !369}
!1084 = !DILocalVariable(name: "copy", scope: !1072, file: !127, line: 81, type: !62)
!1085 = !DILocation(line: 81, column: 9, scope: !1072)
!1086 = !DILocation(line: 81, column: 23, scope: !1072)
!1087 = !DILocation(line: 81, column: 30, scope: !1072)
!1088 = !DILocation(line: 81, column: 16, scope: !1072)
!1089 = !DILocation(line: 82, column: 7, scope: !1090)
!1090 = distinct !DILexicalBlock(scope: !1072, file: !127, line: 82, column: 7)
!1091 = !DILocation(line: 82, column: 7, scope: !1072)
!1092 = !DILocation(line: 83, column: 12, scope: !1090)
!1093 = !DILocation(line: 83, column: 18, scope: !1090)
!1094 = !DILocation(line: 83, column: 24, scope: !1090)
!1095 = !DILocation(line: 83, column: 31, scope: !1090)
!1096 = !DILocation(line: 83, column: 5, scope: !1090)
!1097 = !DILocation(line: 84, column: 10, scope: !1072)
!1098 = !DILocation(line: 84, column: 3, scope: !1072)
!1099 = distinct !DISubprogram(name: "strndup", scope: !127, file: !127, line: 87, type: !1100, scopeLine: 87, flags: DIFlagPrototyped, spFlags: DISPFlagDefinition, unit: !134, retainedNodes: !137)
!1100 = !DISubroutineType(types: !1101)
!1101 = !{!62, !132, !106}
!1102 = !DILocalVariable(name: "text", arg: 1, scope: !1099, file: !127, line: 87, type: !132)
!1103 = !DILocation(line: 87, column: 32, scope: !1099)
!1104 = !DILocalVariable(name: "most", arg: 2, scope: !1099, file: !127, line: 87, type: !106)
!1105 = !DILocation(line: 87, column: 45, scope: !1099)
!1106 = !DILocalVariable(name: "length", scope: !1099, file: !127, line: 88, type: !106)
!1107 = !DILocation(line: 88, column: 10, scope: !1099)
!1108 = !DILocation(line: 89, column: 3, scope: !1099)
!1109 = !DILocation(line: 89, column: 10, scope: !1099)
!1110 = !DILocation(line: 89, column: 19, scope: !1099)
!1111 = !DILocation(line: 89, column: 17, scope: !1099)
!1112 = !DILocation(line: 89, column: 24, scope: !1099)
!1113 = !DILocation(line: 89, column: 27, scope: !1099)
!1114 = !DILocation(line: 89, column: 32, scope: !1099)
!1115 = !DILocation(line: 0, scope: !1099)
!1116 = !DILocation(line: 90, column: 11, scope: !1099)
!1117 = distinct !{!1117, !1108, !1116, !369}
!1118 = !DILocalVariable(name: "copy", scope: !1099, file: !127, line: 91, type: !62)
!1119 = !DILocation(line: 91, column: 9, scope: !1099)
!1120 = !DILocation(line: 91, column: 23, scope: !1099)
!1121 = !DILocation(line: 91, column: 30, scope: !1099)
!1122 = !DILocation(line: 91, column: 16, scope: !1099)
!1123 = !DILocation(line: 92, column: 7, scope: !1124)
!1124 = distinct !DILexicalBlock(scope: !1099, file: !127, line: 92, column: 7)
!1125 = !DILocation(line: 92, column: 7, scope: !1099)
!1126 = !DILocation(line: 93, column: 12, scope: !1127)
!1127 = distinct !DILexicalBlock(scope: !1124, file: !127, line: 92, column: 13)
!1128 = !DILocation(line: 93, column: 18, scope: !1127)
!1129 = !DILocation(line: 93, column: 24, scope: !1127)
!1130 = !DILocation(line: 93, column: 5, scope: !1127)
!1131 = !DILocation(line: 94, column: 5, scope: !1127)
!1132 = !DILocation(line: 94, column: 10, scope: !1127)
!1133 = !DILocation(line: 94, column: 18, scope: !1127)
!1134 = !DILocation(line: 95, column: 3, scope: !1127)
!1135 = !DILocation(line: 96, column: 10, scope: !1099)
!1136 = !DILocation(line: 96, column: 3, scope: !1099)
!1137 = distinct !DISubprogram(name: "strcmp", scope: !127, file: !127, line: 101, type: !1138, scopeLine: 101, flags: DIFlagPrototyped, spFlags: DISPFlagDefinition, unit: !134, retainedNodes: !137)
!1138 = !DISubroutineType(types: !1139)
!1139 = !{!20, !132, !132}
!1140 = !DILocalVariable(name: "one", arg: 1, scope: !1137, file: !127, line: 101, type: !132)
!1141 = !DILocation(line: 101, column: 29, scope: !1137)
!1142 = !DILocalVariable(name: "two", arg: 2, scope: !1137, file: !127, line: 101, type: !132)
!1143 = !DILocation(line: 101, column: 46, scope: !1137)
!1144 = !DILocation(line: 102, column: 3, scope: !1137)
!1145 = !DILocation(line: 102, column: 11, scope: !1146)
!1146 = distinct !DILexicalBlock(scope: !1147, file: !127, line: 102, column: 3)
!1147 = distinct !DILexicalBlock(scope: !1137, file: !127, line: 102, column: 3)
!1148 = !DILocation(line: 102, column: 10, scope: !1146)
!1149 = !DILocation(line: 102, column: 15, scope: !1146)
!1150 = !DILocation(line: 102, column: 19, scope: !1146)
!1151 = !DILocation(line: 102, column: 18, scope: !1146)
!1152 = !DILocation(line: 102, column: 27, scope: !1146)
!1153 = !DILocation(line: 102, column: 26, scope: !1146)
!1154 = !DILocation(line: 102, column: 23, scope: !1146)
!1155 = !DILocation(line: 0, scope: !1146)
!1156 = !DILocation(line: 102, column: 3, scope: !1147)
!1157 = !DILocation(line: 103, column: 8, scope: !1146)
!1158 = !DILocation(line: 103, column: 5, scope: !1146)
!1159 = !DILocation(line: 102, column: 35, scope: !1146)
!1160 = !DILocation(line: 102, column: 3, scope: !1146)
!1161 = distinct !{!1161, !1156, !1162, !369}
!1162 = !DILocation(line: 103, column: 8, scope: !1147)
!1163 = !DILocation(line: 104, column: 26, scope: !1137)
!1164 = !DILocation(line: 104, column: 25, scope: !1137)
!1165 = !DILocation(line: 104, column: 10, scope: !1137)
!1166 = !DILocation(line: 104, column: 48, scope: !1137)
!1167 = !DILocation(line: 104, column: 47, scope: !1137)
!1168 = !DILocation(line: 104, column: 32, scope: !1137)
!1169 = !DILocation(line: 104, column: 30, scope: !1137)
!1170 = !DILocation(line: 104, column: 3, scope: !1137)
!1171 = distinct !DISubprogram(name: "strncmp", scope: !127, file: !127, line: 107, type: !1172, scopeLine: 107, flags: DIFlagPrototyped, spFlags: DISPFlagDefinition, unit: !134, retainedNodes: !137)
!1172 = !DISubroutineType(types: !1173)
!1173 = !{!20, !132, !132, !106}
!1174 = !DILocalVariable(name: "one", arg: 1, scope: !1171, file: !127, line: 107, type: !132)
!1175 = !DILocation(line: 107, column: 30, scope: !1171)
!1176 = !DILocalVariable(name: "two", arg: 2, scope: !1171, file: !127, line: 107, type: !132)
!1177 = !DILocation(line: 107, column: 47, scope: !1171)
!1178 = !DILocalVariable(name: "most", arg: 3, scope: !1171, file: !127, line: 107, type: !106)
!1179 = !DILocation(line: 107, column: 59, scope: !1171)
!1180 = !DILocation(line: 108, column: 3, scope: !1171)
!1181 = !DILocation(line: 108, column: 10, scope: !1182)
!1182 = distinct !DILexicalBlock(scope: !1183, file: !127, line: 108, column: 3)
!1183 = distinct !DILexicalBlock(scope: !1171, file: !127, line: 108, column: 3)
!1184 = !DILocation(line: 108, column: 15, scope: !1182)
!1185 = !DILocation(line: 108, column: 3, scope: !1183)
!1186 = !DILocation(line: 109, column: 11, scope: !1187)
!1187 = distinct !DILexicalBlock(scope: !1182, file: !127, line: 109, column: 9)
!1188 = !DILocation(line: 109, column: 10, scope: !1187)
!1189 = !DILocation(line: 109, column: 15, scope: !1187)
!1190 = !DILocation(line: 109, column: 19, scope: !1187)
!1191 = !DILocation(line: 109, column: 18, scope: !1187)
!1192 = !DILocation(line: 109, column: 27, scope: !1187)
!1193 = !DILocation(line: 109, column: 26, scope: !1187)
!1194 = !DILocation(line: 109, column: 23, scope: !1187)
!1195 = !DILocation(line: 109, column: 9, scope: !1182)
!1196 = !DILocation(line: 110, column: 30, scope: !1187)
!1197 = !DILocation(line: 110, column: 29, scope: !1187)
!1198 = !DILocation(line: 110, column: 14, scope: !1187)
!1199 = !DILocation(line: 110, column: 52, scope: !1187)
!1200 = !DILocation(line: 110, column: 51, scope: !1187)
!1201 = !DILocation(line: 110, column: 36, scope: !1187)
!1202 = !DILocation(line: 110, column: 34, scope: !1187)
!1203 = !DILocation(line: 110, column: 7, scope: !1187)
!1204 = !DILocation(line: 108, column: 24, scope: !1182)
!1205 = !DILocation(line: 108, column: 31, scope: !1182)
!1206 = !DILocation(line: 108, column: 38, scope: !1182)
!1207 = !DILocation(line: 108, column: 3, scope: !1182)
!1208 = distinct !{!1208, !1185, !1209, !369}
!1209 = !DILocation(line: 110, column: 52, scope: !1183)
!1210 = !DILocation(line: 111, column: 3, scope: !1171)
!1211 = !DILocation(line: 112, column: 1, scope: !1171)
!1212 = distinct !DISubprogram(name: "strnlen", scope: !127, file: !127, line: 116, type: !1213, scopeLine: 116, flags: DIFlagPrototyped, spFlags: DISPFlagDefinition, unit: !134, retainedNodes: !137)
!1213 = !DISubroutineType(types: !1214)
!1214 = !{!106, !132, !106}
!1215 = !DILocalVariable(name: "text", arg: 1, scope: !1212, file: !127, line: 116, type: !132)
!1216 = !DILocation(line: 116, column: 33, scope: !1212)
!1217 = !DILocalVariable(name: "most", arg: 2, scope: !1212, file: !127, line: 116, type: !106)
!1218 = !DILocation(line: 116, column: 46, scope: !1212)
!1219 = !DILocalVariable(name: "length", scope: !1212, file: !127, line: 117, type: !106)
!1220 = !DILocation(line: 117, column: 10, scope: !1212)
!1221 = !DILocation(line: 118, column: 3, scope: !1212)
!1222 = !DILocation(line: 118, column: 10, scope: !1212)
!1223 = !DILocation(line: 118, column: 19, scope: !1212)
!1224 = !DILocation(line: 118, column: 17, scope: !1212)
!1225 = !DILocation(line: 118, column: 24, scope: !1212)
!1226 = !DILocation(line: 118, column: 27, scope: !1212)
!1227 = !DILocation(line: 118, column: 32, scope: !1212)
!1228 = !DILocation(line: 0, scope: !1212)
!1229 = !DILocation(line: 119, column: 11, scope: !1212)
!1230 = distinct !{!1230, !1221, !1229, !369}
!1231 = !DILocation(line: 120, column: 10, scope: !1212)
!1232 = !DILocation(line: 120, column: 3, scope: !1212)
!1233 = distinct !DISubprogram(name: "memchr", scope: !127, file: !127, line: 123, type: !1234, scopeLine: 123, flags: DIFlagPrototyped, spFlags: DISPFlagDefinition, unit: !134, retainedNodes: !137)
!1234 = !DISubroutineType(types: !1235)
!1235 = !{!104, !1015, !20, !106}
!1236 = !DILocalVariable(name: "bytes", arg: 1, scope: !1233, file: !127, line: 123, type: !1015)
!1237 = !DILocation(line: 123, column: 31, scope: !1233)
!1238 = !DILocalVariable(name: "wanted", arg: 2, scope: !1233, file: !127, line: 123, type: !20)
!1239 = !DILocation(line: 123, column: 42, scope: !1233)
!1240 = !DILocalVariable(name: "size", arg: 3, scope: !1233, file: !127, line: 123, type: !106)
!1241 = !DILocation(line: 123, column: 57, scope: !1233)
!1242 = !DILocalVariable(name: "at", scope: !1233, file: !127, line: 124, type: !132)
!1243 = !DILocation(line: 124, column: 15, scope: !1233)
!1244 = !DILocation(line: 124, column: 20, scope: !1233)
!1245 = !DILocation(line: 125, column: 3, scope: !1233)
!1246 = !DILocation(line: 125, column: 10, scope: !1247)
!1247 = distinct !DILexicalBlock(scope: !1248, file: !127, line: 125, column: 3)
!1248 = distinct !DILexicalBlock(scope: !1233, file: !127, line: 125, column: 3)
!1249 = !DILocation(line: 125, column: 15, scope: !1247)
!1250 = !DILocation(line: 125, column: 3, scope: !1248)
!1251 = !DILocation(line: 126, column: 10, scope: !1252)
!1252 = distinct !DILexicalBlock(scope: !1247, file: !127, line: 126, column: 9)
!1253 = !DILocation(line: 126, column: 9, scope: !1252)
!1254 = !DILocation(line: 126, column: 22, scope: !1252)
!1255 = !DILocation(line: 126, column: 16, scope: !1252)
!1256 = !DILocation(line: 126, column: 13, scope: !1252)
!1257 = !DILocation(line: 126, column: 9, scope: !1247)
!1258 = !DILocation(line: 127, column: 22, scope: !1252)
!1259 = !DILocation(line: 127, column: 7, scope: !1252)
!1260 = !DILocation(line: 125, column: 24, scope: !1247)
!1261 = !DILocation(line: 125, column: 30, scope: !1247)
!1262 = !DILocation(line: 125, column: 3, scope: !1247)
!1263 = distinct !{!1263, !1250, !1264, !369}
!1264 = !DILocation(line: 127, column: 22, scope: !1248)
!1265 = !DILocation(line: 128, column: 3, scope: !1233)
!1266 = !DILocation(line: 129, column: 1, scope: !1233)
!1267 = distinct !DISubprogram(name: "memrchr", scope: !127, file: !127, line: 131, type: !1234, scopeLine: 131, flags: DIFlagPrototyped, spFlags: DISPFlagDefinition, unit: !134, retainedNodes: !137)
!1268 = !DILocalVariable(name: "bytes", arg: 1, scope: !1267, file: !127, line: 131, type: !1015)
!1269 = !DILocation(line: 131, column: 32, scope: !1267)
!1270 = !DILocalVariable(name: "wanted", arg: 2, scope: !1267, file: !127, line: 131, type: !20)
!1271 = !DILocation(line: 131, column: 43, scope: !1267)
!1272 = !DILocalVariable(name: "size", arg: 3, scope: !1267, file: !127, line: 131, type: !106)
!1273 = !DILocation(line: 131, column: 58, scope: !1267)
!1274 = !DILocalVariable(name: "start", scope: !1267, file: !127, line: 132, type: !132)
!1275 = !DILocation(line: 132, column: 15, scope: !1267)
!1276 = !DILocation(line: 132, column: 23, scope: !1267)
!1277 = !DILocation(line: 133, column: 3, scope: !1267)
!1278 = !DILocation(line: 133, column: 14, scope: !1267)
!1279 = !DILocation(line: 133, column: 17, scope: !1267)
!1280 = !DILocation(line: 134, column: 9, scope: !1281)
!1281 = distinct !DILexicalBlock(scope: !1267, file: !127, line: 134, column: 9)
!1282 = !DILocation(line: 134, column: 15, scope: !1281)
!1283 = !DILocation(line: 134, column: 30, scope: !1281)
!1284 = !DILocation(line: 134, column: 24, scope: !1281)
!1285 = !DILocation(line: 134, column: 21, scope: !1281)
!1286 = !DILocation(line: 134, column: 9, scope: !1267)
!1287 = !DILocation(line: 135, column: 23, scope: !1281)
!1288 = !DILocation(line: 135, column: 31, scope: !1281)
!1289 = !DILocation(line: 135, column: 29, scope: !1281)
!1290 = !DILocation(line: 135, column: 7, scope: !1281)
!1291 = distinct !{!1291, !1277, !1292, !369}
!1292 = !DILocation(line: 135, column: 35, scope: !1267)
!1293 = !DILocation(line: 136, column: 3, scope: !1267)
!1294 = !DILocation(line: 137, column: 1, scope: !1267)
!1295 = distinct !DISubprogram(name: "memmem", scope: !127, file: !127, line: 139, type: !1296, scopeLine: 139, flags: DIFlagPrototyped, spFlags: DISPFlagDefinition, unit: !134, retainedNodes: !137)
!1296 = !DISubroutineType(types: !1297)
!1297 = !{!104, !1015, !106, !1015, !106}
!1298 = !DILocalVariable(name: "bytes", arg: 1, scope: !1295, file: !127, line: 139, type: !1015)
!1299 = !DILocation(line: 139, column: 31, scope: !1295)
!1300 = !DILocalVariable(name: "size", arg: 2, scope: !1295, file: !127, line: 139, type: !106)
!1301 = !DILocation(line: 139, column: 45, scope: !1295)
!1302 = !DILocalVariable(name: "wanted", arg: 3, scope: !1295, file: !127, line: 139, type: !1015)
!1303 = !DILocation(line: 139, column: 63, scope: !1295)
!1304 = !DILocalVariable(name: "length", arg: 4, scope: !1295, file: !127, line: 139, type: !106)
!1305 = !DILocation(line: 139, column: 78, scope: !1295)
!1306 = !DILocalVariable(name: "at", scope: !1295, file: !127, line: 140, type: !132)
!1307 = !DILocation(line: 140, column: 15, scope: !1295)
!1308 = !DILocation(line: 140, column: 20, scope: !1295)
!1309 = !DILocalVariable(name: "pattern", scope: !1295, file: !127, line: 140, type: !132)
!1310 = !DILocation(line: 140, column: 28, scope: !1295)
!1311 = !DILocation(line: 140, column: 38, scope: !1295)
!1312 = !DILocation(line: 141, column: 3, scope: !1295)
!1313 = !DILocation(line: 141, column: 10, scope: !1314)
!1314 = distinct !DILexicalBlock(scope: !1315, file: !127, line: 141, column: 3)
!1315 = distinct !DILexicalBlock(scope: !1295, file: !127, line: 141, column: 3)
!1316 = !DILocation(line: 141, column: 18, scope: !1314)
!1317 = !DILocation(line: 141, column: 15, scope: !1314)
!1318 = !DILocation(line: 141, column: 3, scope: !1315)
!1319 = !DILocalVariable(name: "k", scope: !1320, file: !127, line: 142, type: !106)
!1320 = distinct !DILexicalBlock(scope: !1314, file: !127, line: 141, column: 40)
!1321 = !DILocation(line: 142, column: 12, scope: !1320)
!1322 = !DILocation(line: 143, column: 5, scope: !1320)
!1323 = !DILocation(line: 143, column: 12, scope: !1320)
!1324 = !DILocation(line: 143, column: 16, scope: !1320)
!1325 = !DILocation(line: 143, column: 14, scope: !1320)
!1326 = !DILocation(line: 143, column: 23, scope: !1320)
!1327 = !DILocation(line: 143, column: 26, scope: !1320)
!1328 = !DILocation(line: 143, column: 29, scope: !1320)
!1329 = !DILocation(line: 143, column: 35, scope: !1320)
!1330 = !DILocation(line: 143, column: 43, scope: !1320)
!1331 = !DILocation(line: 143, column: 32, scope: !1320)
!1332 = !DILocation(line: 0, scope: !1320)
!1333 = !DILocation(line: 144, column: 8, scope: !1320)
!1334 = distinct !{!1334, !1322, !1333, !369}
!1335 = !DILocation(line: 145, column: 9, scope: !1336)
!1336 = distinct !DILexicalBlock(scope: !1320, file: !127, line: 145, column: 9)
!1337 = !DILocation(line: 145, column: 14, scope: !1336)
!1338 = !DILocation(line: 145, column: 11, scope: !1336)
!1339 = !DILocation(line: 145, column: 9, scope: !1320)
!1340 = !DILocation(line: 146, column: 22, scope: !1336)
!1341 = !DILocation(line: 146, column: 7, scope: !1336)
!1342 = !DILocation(line: 147, column: 3, scope: !1320)
!1343 = !DILocation(line: 141, column: 30, scope: !1314)
!1344 = !DILocation(line: 141, column: 36, scope: !1314)
!1345 = !DILocation(line: 141, column: 3, scope: !1314)
!1346 = distinct !{!1346, !1318, !1347, !369}
!1347 = !DILocation(line: 147, column: 3, scope: !1315)
!1348 = !DILocation(line: 148, column: 3, scope: !1295)
!1349 = !DILocation(line: 149, column: 1, scope: !1295)
!1350 = distinct !DISubprogram(name: "strchr", scope: !127, file: !127, line: 151, type: !1351, scopeLine: 151, flags: DIFlagPrototyped, spFlags: DISPFlagDefinition, unit: !134, retainedNodes: !137)
!1351 = !DISubroutineType(types: !1352)
!1352 = !{!62, !132, !20}
!1353 = !DILocalVariable(name: "text", arg: 1, scope: !1350, file: !127, line: 151, type: !132)
!1354 = !DILocation(line: 151, column: 31, scope: !1350)
!1355 = !DILocalVariable(name: "wanted", arg: 2, scope: !1350, file: !127, line: 151, type: !20)
!1356 = !DILocation(line: 151, column: 41, scope: !1350)
!1357 = !DILocation(line: 152, column: 3, scope: !1350)
!1358 = !DILocation(line: 152, column: 11, scope: !1359)
!1359 = distinct !DILexicalBlock(scope: !1360, file: !127, line: 152, column: 3)
!1360 = distinct !DILexicalBlock(scope: !1350, file: !127, line: 152, column: 3)
!1361 = !DILocation(line: 152, column: 10, scope: !1359)
!1362 = !DILocation(line: 152, column: 25, scope: !1359)
!1363 = !DILocation(line: 152, column: 19, scope: !1359)
!1364 = !DILocation(line: 152, column: 16, scope: !1359)
!1365 = !DILocation(line: 152, column: 3, scope: !1360)
!1366 = !DILocation(line: 153, column: 11, scope: !1367)
!1367 = distinct !DILexicalBlock(scope: !1359, file: !127, line: 153, column: 9)
!1368 = !DILocation(line: 153, column: 10, scope: !1367)
!1369 = !DILocation(line: 153, column: 9, scope: !1359)
!1370 = !DILocation(line: 154, column: 7, scope: !1367)
!1371 = !DILocation(line: 152, column: 37, scope: !1359)
!1372 = !DILocation(line: 152, column: 3, scope: !1359)
!1373 = distinct !{!1373, !1365, !1374, !369}
!1374 = !DILocation(line: 154, column: 14, scope: !1360)
!1375 = !DILocation(line: 155, column: 18, scope: !1350)
!1376 = !DILocation(line: 155, column: 3, scope: !1350)
!1377 = !DILocation(line: 156, column: 1, scope: !1350)
!1378 = distinct !DISubprogram(name: "strchrnul", scope: !127, file: !127, line: 158, type: !1351, scopeLine: 158, flags: DIFlagPrototyped, spFlags: DISPFlagDefinition, unit: !134, retainedNodes: !137)
!1379 = !DILocalVariable(name: "text", arg: 1, scope: !1378, file: !127, line: 158, type: !132)
!1380 = !DILocation(line: 158, column: 34, scope: !1378)
!1381 = !DILocalVariable(name: "wanted", arg: 2, scope: !1378, file: !127, line: 158, type: !20)
!1382 = !DILocation(line: 158, column: 44, scope: !1378)
!1383 = !DILocation(line: 159, column: 3, scope: !1378)
!1384 = !DILocation(line: 159, column: 11, scope: !1378)
!1385 = !DILocation(line: 159, column: 10, scope: !1378)
!1386 = !DILocation(line: 159, column: 16, scope: !1378)
!1387 = !DILocation(line: 159, column: 20, scope: !1378)
!1388 = !DILocation(line: 159, column: 19, scope: !1378)
!1389 = !DILocation(line: 159, column: 34, scope: !1378)
!1390 = !DILocation(line: 159, column: 28, scope: !1378)
!1391 = !DILocation(line: 159, column: 25, scope: !1378)
!1392 = !DILocation(line: 0, scope: !1378)
!1393 = !DILocation(line: 160, column: 9, scope: !1378)
!1394 = distinct !{!1394, !1383, !1393, !369}
!1395 = !DILocation(line: 161, column: 18, scope: !1378)
!1396 = !DILocation(line: 161, column: 3, scope: !1378)
!1397 = distinct !DISubprogram(name: "strrchr", scope: !127, file: !127, line: 164, type: !1351, scopeLine: 164, flags: DIFlagPrototyped, spFlags: DISPFlagDefinition, unit: !134, retainedNodes: !137)
!1398 = !DILocalVariable(name: "text", arg: 1, scope: !1397, file: !127, line: 164, type: !132)
!1399 = !DILocation(line: 164, column: 32, scope: !1397)
!1400 = !DILocalVariable(name: "wanted", arg: 2, scope: !1397, file: !127, line: 164, type: !20)
!1401 = !DILocation(line: 164, column: 42, scope: !1397)
!1402 = !DILocalVariable(name: "last", scope: !1397, file: !127, line: 165, type: !132)
!1403 = !DILocation(line: 165, column: 15, scope: !1397)
!1404 = !DILocation(line: 166, column: 3, scope: !1397)
!1405 = !DILocation(line: 167, column: 10, scope: !1406)
!1406 = distinct !DILexicalBlock(scope: !1407, file: !127, line: 167, column: 9)
!1407 = distinct !DILexicalBlock(scope: !1408, file: !127, line: 166, column: 19)
!1408 = distinct !DILexicalBlock(scope: !1409, file: !127, line: 166, column: 3)
!1409 = distinct !DILexicalBlock(scope: !1397, file: !127, line: 166, column: 3)
!1410 = !DILocation(line: 167, column: 9, scope: !1406)
!1411 = !DILocation(line: 167, column: 24, scope: !1406)
!1412 = !DILocation(line: 167, column: 18, scope: !1406)
!1413 = !DILocation(line: 167, column: 15, scope: !1406)
!1414 = !DILocation(line: 167, column: 9, scope: !1407)
!1415 = !DILocation(line: 168, column: 14, scope: !1406)
!1416 = !DILocation(line: 168, column: 12, scope: !1406)
!1417 = !DILocation(line: 168, column: 7, scope: !1406)
!1418 = !DILocation(line: 169, column: 11, scope: !1419)
!1419 = distinct !DILexicalBlock(scope: !1407, file: !127, line: 169, column: 9)
!1420 = !DILocation(line: 169, column: 10, scope: !1419)
!1421 = !DILocation(line: 169, column: 9, scope: !1407)
!1422 = !DILocation(line: 170, column: 22, scope: !1419)
!1423 = !DILocation(line: 170, column: 7, scope: !1419)
!1424 = !DILocation(line: 171, column: 3, scope: !1407)
!1425 = !DILocation(line: 166, column: 15, scope: !1408)
!1426 = !DILocation(line: 166, column: 3, scope: !1408)
!1427 = distinct !{!1427, !1428, !1429}
!1428 = !DILocation(line: 166, column: 3, scope: !1409)
!1429 = !DILocation(line: 171, column: 3, scope: !1409)
!1430 = distinct !DISubprogram(name: "strstr", scope: !127, file: !127, line: 174, type: !1431, scopeLine: 174, flags: DIFlagPrototyped, spFlags: DISPFlagDefinition, unit: !134, retainedNodes: !137)
!1431 = !DISubroutineType(types: !1432)
!1432 = !{!62, !132, !132}
!1433 = !DILocalVariable(name: "text", arg: 1, scope: !1430, file: !127, line: 174, type: !132)
!1434 = !DILocation(line: 174, column: 31, scope: !1430)
!1435 = !DILocalVariable(name: "wanted", arg: 2, scope: !1430, file: !127, line: 174, type: !132)
!1436 = !DILocation(line: 174, column: 49, scope: !1430)
!1437 = !DILocation(line: 175, column: 3, scope: !1430)
!1438 = !DILocalVariable(name: "k", scope: !1439, file: !127, line: 176, type: !106)
!1439 = distinct !DILexicalBlock(scope: !1440, file: !127, line: 175, column: 19)
!1440 = distinct !DILexicalBlock(scope: !1441, file: !127, line: 175, column: 3)
!1441 = distinct !DILexicalBlock(scope: !1430, file: !127, line: 175, column: 3)
!1442 = !DILocation(line: 176, column: 12, scope: !1439)
!1443 = !DILocation(line: 177, column: 5, scope: !1439)
!1444 = !DILocation(line: 177, column: 12, scope: !1439)
!1445 = !DILocation(line: 177, column: 19, scope: !1439)
!1446 = !DILocation(line: 177, column: 22, scope: !1439)
!1447 = !DILocation(line: 177, column: 25, scope: !1439)
!1448 = !DILocation(line: 177, column: 30, scope: !1439)
!1449 = !DILocation(line: 177, column: 36, scope: !1439)
!1450 = !DILocation(line: 177, column: 43, scope: !1439)
!1451 = !DILocation(line: 177, column: 33, scope: !1439)
!1452 = !DILocation(line: 0, scope: !1439)
!1453 = !DILocation(line: 178, column: 8, scope: !1439)
!1454 = distinct !{!1454, !1443, !1453, !369}
!1455 = !DILocation(line: 179, column: 10, scope: !1456)
!1456 = distinct !DILexicalBlock(scope: !1439, file: !127, line: 179, column: 9)
!1457 = !DILocation(line: 179, column: 17, scope: !1456)
!1458 = !DILocation(line: 179, column: 9, scope: !1439)
!1459 = !DILocation(line: 180, column: 22, scope: !1456)
!1460 = !DILocation(line: 180, column: 7, scope: !1456)
!1461 = !DILocation(line: 181, column: 10, scope: !1462)
!1462 = distinct !DILexicalBlock(scope: !1439, file: !127, line: 181, column: 9)
!1463 = !DILocation(line: 181, column: 15, scope: !1462)
!1464 = !DILocation(line: 181, column: 9, scope: !1439)
!1465 = !DILocation(line: 182, column: 7, scope: !1462)
!1466 = !DILocation(line: 183, column: 3, scope: !1439)
!1467 = !DILocation(line: 175, column: 15, scope: !1440)
!1468 = !DILocation(line: 175, column: 3, scope: !1440)
!1469 = distinct !{!1469, !1470, !1471}
!1470 = !DILocation(line: 175, column: 3, scope: !1441)
!1471 = !DILocation(line: 183, column: 3, scope: !1441)
!1472 = !DILocation(line: 184, column: 1, scope: !1430)
!1473 = distinct !DISubprogram(name: "strspn", scope: !127, file: !127, line: 193, type: !1474, scopeLine: 193, flags: DIFlagPrototyped, spFlags: DISPFlagDefinition, unit: !134, retainedNodes: !137)
!1474 = !DISubroutineType(types: !1475)
!1475 = !{!106, !132, !132}
!1476 = !DILocalVariable(name: "text", arg: 1, scope: !1473, file: !127, line: 193, type: !132)
!1477 = !DILocation(line: 193, column: 32, scope: !1473)
!1478 = !DILocalVariable(name: "accepted", arg: 2, scope: !1473, file: !127, line: 193, type: !132)
!1479 = !DILocation(line: 193, column: 50, scope: !1473)
!1480 = !DILocalVariable(name: "length", scope: !1473, file: !127, line: 194, type: !106)
!1481 = !DILocation(line: 194, column: 10, scope: !1473)
!1482 = !DILocation(line: 195, column: 3, scope: !1473)
!1483 = !DILocation(line: 195, column: 10, scope: !1473)
!1484 = !DILocation(line: 195, column: 15, scope: !1473)
!1485 = !DILocation(line: 195, column: 23, scope: !1473)
!1486 = !DILocation(line: 195, column: 35, scope: !1473)
!1487 = !DILocation(line: 195, column: 40, scope: !1473)
!1488 = !DILocation(line: 195, column: 49, scope: !1473)
!1489 = !DILocation(line: 195, column: 26, scope: !1473)
!1490 = !DILocation(line: 0, scope: !1473)
!1491 = !DILocation(line: 196, column: 11, scope: !1473)
!1492 = distinct !{!1492, !1482, !1491, !369}
!1493 = !DILocation(line: 197, column: 10, scope: !1473)
!1494 = !DILocation(line: 197, column: 3, scope: !1473)
!1495 = distinct !DISubprogram(name: "is_among", scope: !127, file: !127, line: 186, type: !1496, scopeLine: 186, flags: DIFlagPrototyped, spFlags: DISPFlagLocalToUnit | DISPFlagDefinition, unit: !134, retainedNodes: !137)
!1496 = !DISubroutineType(types: !1497)
!1497 = !{!20, !4, !132}
!1498 = !DILocalVariable(name: "wanted", arg: 1, scope: !1495, file: !127, line: 186, type: !4)
!1499 = !DILocation(line: 186, column: 26, scope: !1495)
!1500 = !DILocalVariable(name: "set", arg: 2, scope: !1495, file: !127, line: 186, type: !132)
!1501 = !DILocation(line: 186, column: 46, scope: !1495)
!1502 = !DILocation(line: 187, column: 3, scope: !1495)
!1503 = !DILocation(line: 187, column: 11, scope: !1504)
!1504 = distinct !DILexicalBlock(scope: !1505, file: !127, line: 187, column: 3)
!1505 = distinct !DILexicalBlock(scope: !1495, file: !127, line: 187, column: 3)
!1506 = !DILocation(line: 187, column: 10, scope: !1504)
!1507 = !DILocation(line: 187, column: 3, scope: !1505)
!1508 = !DILocation(line: 188, column: 10, scope: !1509)
!1509 = distinct !DILexicalBlock(scope: !1504, file: !127, line: 188, column: 9)
!1510 = !DILocation(line: 188, column: 9, scope: !1509)
!1511 = !DILocation(line: 188, column: 17, scope: !1509)
!1512 = !DILocation(line: 188, column: 14, scope: !1509)
!1513 = !DILocation(line: 188, column: 9, scope: !1504)
!1514 = !DILocation(line: 189, column: 7, scope: !1509)
!1515 = !DILocation(line: 187, column: 19, scope: !1504)
!1516 = !DILocation(line: 187, column: 3, scope: !1504)
!1517 = distinct !{!1517, !1507, !1518, !369}
!1518 = !DILocation(line: 189, column: 14, scope: !1505)
!1519 = !DILocation(line: 190, column: 3, scope: !1495)
!1520 = !DILocation(line: 191, column: 1, scope: !1495)
!1521 = distinct !DISubprogram(name: "strcspn", scope: !127, file: !127, line: 208, type: !1474, scopeLine: 208, flags: DIFlagPrototyped, spFlags: DISPFlagDefinition, unit: !134, retainedNodes: !137)
!1522 = !DILocalVariable(name: "text", arg: 1, scope: !1521, file: !127, line: 208, type: !132)
!1523 = !DILocation(line: 208, column: 33, scope: !1521)
!1524 = !DILocalVariable(name: "rejected", arg: 2, scope: !1521, file: !127, line: 208, type: !132)
!1525 = !DILocation(line: 208, column: 51, scope: !1521)
!1526 = !DILocation(line: 208, column: 84, scope: !1521)
!1527 = !DILocation(line: 208, column: 90, scope: !1521)
!1528 = !DILocation(line: 208, column: 70, scope: !1521)
!1529 = !DILocation(line: 208, column: 63, scope: !1521)
!1530 = distinct !DISubprogram(name: "length_before", scope: !127, file: !127, line: 201, type: !1474, scopeLine: 201, flags: DIFlagPrototyped, spFlags: DISPFlagLocalToUnit | DISPFlagDefinition, unit: !134, retainedNodes: !137)
!1531 = !DILocalVariable(name: "text", arg: 1, scope: !1530, file: !127, line: 201, type: !132)
!1532 = !DILocation(line: 201, column: 41, scope: !1530)
!1533 = !DILocalVariable(name: "set", arg: 2, scope: !1530, file: !127, line: 201, type: !132)
!1534 = !DILocation(line: 201, column: 59, scope: !1530)
!1535 = !DILocalVariable(name: "length", scope: !1530, file: !127, line: 202, type: !106)
!1536 = !DILocation(line: 202, column: 10, scope: !1530)
!1537 = !DILocation(line: 203, column: 3, scope: !1530)
!1538 = !DILocation(line: 203, column: 10, scope: !1530)
!1539 = !DILocation(line: 203, column: 15, scope: !1530)
!1540 = !DILocation(line: 203, column: 23, scope: !1530)
!1541 = !DILocation(line: 203, column: 36, scope: !1530)
!1542 = !DILocation(line: 203, column: 41, scope: !1530)
!1543 = !DILocation(line: 203, column: 50, scope: !1530)
!1544 = !DILocation(line: 203, column: 27, scope: !1530)
!1545 = !DILocation(line: 203, column: 26, scope: !1530)
!1546 = !DILocation(line: 0, scope: !1530)
!1547 = !DILocation(line: 204, column: 11, scope: !1530)
!1548 = distinct !{!1548, !1537, !1547, !369}
!1549 = !DILocation(line: 205, column: 10, scope: !1530)
!1550 = !DILocation(line: 205, column: 3, scope: !1530)
!1551 = distinct !DISubprogram(name: "strpbrk", scope: !127, file: !127, line: 210, type: !1431, scopeLine: 210, flags: DIFlagPrototyped, spFlags: DISPFlagDefinition, unit: !134, retainedNodes: !137)
!1552 = !DILocalVariable(name: "text", arg: 1, scope: !1551, file: !127, line: 210, type: !132)
!1553 = !DILocation(line: 210, column: 32, scope: !1551)
!1554 = !DILocalVariable(name: "accepted", arg: 2, scope: !1551, file: !127, line: 210, type: !132)
!1555 = !DILocation(line: 210, column: 50, scope: !1551)
!1556 = !DILocation(line: 211, column: 25, scope: !1551)
!1557 = !DILocation(line: 211, column: 31, scope: !1551)
!1558 = !DILocation(line: 211, column: 11, scope: !1551)
!1559 = !DILocation(line: 211, column: 8, scope: !1551)
!1560 = !DILocation(line: 212, column: 11, scope: !1551)
!1561 = !DILocation(line: 212, column: 10, scope: !1551)
!1562 = !DILocation(line: 212, column: 26, scope: !1551)
!1563 = !DILocation(line: 212, column: 3, scope: !1551)
!1564 = distinct !DISubprogram(name: "strtok_r", scope: !127, file: !127, line: 237, type: !1565, scopeLine: 237, flags: DIFlagPrototyped, spFlags: DISPFlagDefinition, unit: !134, retainedNodes: !137)
!1565 = !DISubroutineType(types: !1566)
!1566 = !{!62, !130, !131, !406}
!1567 = !DILocalVariable(name: "text", arg: 1, scope: !1564, file: !127, line: 237, type: !130)
!1568 = !DILocation(line: 237, column: 36, scope: !1564)
!1569 = !DILocalVariable(name: "separators", arg: 2, scope: !1564, file: !127, line: 237, type: !131)
!1570 = !DILocation(line: 237, column: 63, scope: !1564)
!1571 = !DILocalVariable(name: "rest", arg: 3, scope: !1564, file: !127, line: 237, type: !406)
!1572 = !DILocation(line: 237, column: 91, scope: !1564)
!1573 = !DILocation(line: 238, column: 21, scope: !1564)
!1574 = !DILocation(line: 238, column: 27, scope: !1564)
!1575 = !DILocation(line: 238, column: 39, scope: !1564)
!1576 = !DILocation(line: 238, column: 10, scope: !1564)
!1577 = !DILocation(line: 238, column: 3, scope: !1564)
!1578 = distinct !DISubprogram(name: "next_token", scope: !127, file: !127, line: 226, type: !1579, scopeLine: 226, flags: DIFlagPrototyped, spFlags: DISPFlagLocalToUnit | DISPFlagDefinition, unit: !134, retainedNodes: !137)
!1579 = !DISubroutineType(types: !1580)
!1580 = !{!62, !62, !132, !407}
!1581 = !DILocalVariable(name: "text", arg: 1, scope: !1578, file: !127, line: 226, type: !62)
!1582 = !DILocation(line: 226, column: 31, scope: !1578)
!1583 = !DILocalVariable(name: "separators", arg: 2, scope: !1578, file: !127, line: 226, type: !132)
!1584 = !DILocation(line: 226, column: 49, scope: !1578)
!1585 = !DILocalVariable(name: "rest", arg: 3, scope: !1578, file: !127, line: 226, type: !407)
!1586 = !DILocation(line: 226, column: 68, scope: !1578)
!1587 = !DILocation(line: 227, column: 8, scope: !1588)
!1588 = distinct !DILexicalBlock(scope: !1578, file: !127, line: 227, column: 7)
!1589 = !DILocation(line: 227, column: 7, scope: !1578)
!1590 = !DILocation(line: 228, column: 13, scope: !1588)
!1591 = !DILocation(line: 228, column: 12, scope: !1588)
!1592 = !DILocation(line: 228, column: 10, scope: !1588)
!1593 = !DILocation(line: 228, column: 5, scope: !1588)
!1594 = !DILocation(line: 229, column: 3, scope: !1578)
!1595 = !DILocation(line: 229, column: 10, scope: !1578)
!1596 = !DILocation(line: 229, column: 15, scope: !1578)
!1597 = !DILocation(line: 229, column: 19, scope: !1578)
!1598 = !DILocation(line: 229, column: 18, scope: !1578)
!1599 = !DILocation(line: 229, column: 24, scope: !1578)
!1600 = !DILocation(line: 229, column: 37, scope: !1578)
!1601 = !DILocation(line: 229, column: 36, scope: !1578)
!1602 = !DILocation(line: 229, column: 43, scope: !1578)
!1603 = !DILocation(line: 229, column: 27, scope: !1578)
!1604 = !DILocation(line: 0, scope: !1578)
!1605 = !DILocation(line: 230, column: 9, scope: !1578)
!1606 = distinct !{!1606, !1594, !1605, !369}
!1607 = !DILocation(line: 231, column: 8, scope: !1608)
!1608 = distinct !DILexicalBlock(scope: !1578, file: !127, line: 231, column: 7)
!1609 = !DILocation(line: 231, column: 13, scope: !1608)
!1610 = !DILocation(line: 231, column: 18, scope: !1608)
!1611 = !DILocation(line: 231, column: 17, scope: !1608)
!1612 = !DILocation(line: 231, column: 7, scope: !1578)
!1613 = !DILocation(line: 232, column: 13, scope: !1608)
!1614 = !DILocation(line: 232, column: 18, scope: !1608)
!1615 = !DILocation(line: 232, column: 5, scope: !1608)
!1616 = !DILocation(line: 233, column: 15, scope: !1578)
!1617 = !DILocation(line: 233, column: 21, scope: !1578)
!1618 = !DILocation(line: 233, column: 11, scope: !1578)
!1619 = !DILocation(line: 233, column: 4, scope: !1578)
!1620 = !DILocation(line: 233, column: 9, scope: !1578)
!1621 = !DILocation(line: 234, column: 10, scope: !1578)
!1622 = !DILocation(line: 234, column: 3, scope: !1578)
!1623 = !DILocation(line: 235, column: 1, scope: !1578)
!1624 = distinct !DISubprogram(name: "cut", scope: !127, file: !127, line: 218, type: !1625, scopeLine: 218, flags: DIFlagPrototyped, spFlags: DISPFlagLocalToUnit | DISPFlagDefinition, unit: !134, retainedNodes: !137)
!1625 = !DISubroutineType(types: !1626)
!1626 = !{!62, !62, !132}
!1627 = !DILocalVariable(name: "text", arg: 1, scope: !1624, file: !127, line: 218, type: !62)
!1628 = !DILocation(line: 218, column: 24, scope: !1624)
!1629 = !DILocalVariable(name: "separators", arg: 2, scope: !1624, file: !127, line: 218, type: !132)
!1630 = !DILocation(line: 218, column: 42, scope: !1624)
!1631 = !DILocalVariable(name: "end", scope: !1624, file: !127, line: 219, type: !62)
!1632 = !DILocation(line: 219, column: 9, scope: !1624)
!1633 = !DILocation(line: 219, column: 15, scope: !1624)
!1634 = !DILocation(line: 219, column: 36, scope: !1624)
!1635 = !DILocation(line: 219, column: 42, scope: !1624)
!1636 = !DILocation(line: 219, column: 22, scope: !1624)
!1637 = !DILocation(line: 219, column: 20, scope: !1624)
!1638 = !DILocation(line: 220, column: 9, scope: !1639)
!1639 = distinct !DILexicalBlock(scope: !1624, file: !127, line: 220, column: 7)
!1640 = !DILocation(line: 220, column: 8, scope: !1639)
!1641 = !DILocation(line: 220, column: 7, scope: !1624)
!1642 = !DILocation(line: 221, column: 5, scope: !1639)
!1643 = !DILocation(line: 222, column: 4, scope: !1624)
!1644 = !DILocation(line: 222, column: 8, scope: !1624)
!1645 = !DILocation(line: 223, column: 10, scope: !1624)
!1646 = !DILocation(line: 223, column: 14, scope: !1624)
!1647 = !DILocation(line: 223, column: 3, scope: !1624)
!1648 = !DILocation(line: 224, column: 1, scope: !1624)
!1649 = !DILocalVariable(name: "text", arg: 1, scope: !126, file: !127, line: 241, type: !130)
!1650 = !DILocation(line: 241, column: 34, scope: !126)
!1651 = !DILocalVariable(name: "separators", arg: 2, scope: !126, file: !127, line: 241, type: !131)
!1652 = !DILocation(line: 241, column: 61, scope: !126)
!1653 = !DILocation(line: 243, column: 21, scope: !126)
!1654 = !DILocation(line: 243, column: 27, scope: !126)
!1655 = !DILocation(line: 243, column: 10, scope: !126)
!1656 = !DILocation(line: 243, column: 3, scope: !126)
!1657 = distinct !DISubprogram(name: "strsep", scope: !127, file: !127, line: 246, type: !1658, scopeLine: 246, flags: DIFlagPrototyped, spFlags: DISPFlagDefinition, unit: !134, retainedNodes: !137)
!1658 = !DISubroutineType(types: !1659)
!1659 = !{!62, !406, !131}
!1660 = !DILocalVariable(name: "rest", arg: 1, scope: !1657, file: !127, line: 246, type: !406)
!1661 = !DILocation(line: 246, column: 35, scope: !1657)
!1662 = !DILocalVariable(name: "separators", arg: 2, scope: !1657, file: !127, line: 246, type: !131)
!1663 = !DILocation(line: 246, column: 62, scope: !1657)
!1664 = !DILocalVariable(name: "text", scope: !1657, file: !127, line: 247, type: !62)
!1665 = !DILocation(line: 247, column: 9, scope: !1657)
!1666 = !DILocation(line: 247, column: 17, scope: !1657)
!1667 = !DILocation(line: 247, column: 16, scope: !1657)
!1668 = !DILocation(line: 248, column: 7, scope: !1669)
!1669 = distinct !DILexicalBlock(scope: !1657, file: !127, line: 248, column: 7)
!1670 = !DILocation(line: 248, column: 7, scope: !1657)
!1671 = !DILocation(line: 249, column: 17, scope: !1669)
!1672 = !DILocation(line: 249, column: 23, scope: !1669)
!1673 = !DILocation(line: 249, column: 13, scope: !1669)
!1674 = !DILocation(line: 249, column: 6, scope: !1669)
!1675 = !DILocation(line: 249, column: 11, scope: !1669)
!1676 = !DILocation(line: 249, column: 5, scope: !1669)
!1677 = !DILocation(line: 250, column: 10, scope: !1657)
!1678 = !DILocation(line: 250, column: 3, scope: !1657)
!1679 = distinct !DISubprogram(name: "strcasecmp", scope: !141, file: !141, line: 11, type: !1138, scopeLine: 11, flags: DIFlagPrototyped, spFlags: DISPFlagDefinition, unit: !140, retainedNodes: !137)
!1680 = !DILocalVariable(name: "one", arg: 1, scope: !1679, file: !141, line: 11, type: !132)
!1681 = !DILocation(line: 11, column: 33, scope: !1679)
!1682 = !DILocalVariable(name: "two", arg: 2, scope: !1679, file: !141, line: 11, type: !132)
!1683 = !DILocation(line: 11, column: 50, scope: !1679)
!1684 = !DILocation(line: 12, column: 3, scope: !1679)
!1685 = !DILocation(line: 12, column: 11, scope: !1686)
!1686 = distinct !DILexicalBlock(scope: !1687, file: !141, line: 12, column: 3)
!1687 = distinct !DILexicalBlock(scope: !1679, file: !141, line: 12, column: 3)
!1688 = !DILocation(line: 12, column: 10, scope: !1686)
!1689 = !DILocation(line: 12, column: 15, scope: !1686)
!1690 = !DILocation(line: 12, column: 25, scope: !1686)
!1691 = !DILocation(line: 12, column: 24, scope: !1686)
!1692 = !DILocation(line: 12, column: 18, scope: !1686)
!1693 = !DILocation(line: 12, column: 40, scope: !1686)
!1694 = !DILocation(line: 12, column: 39, scope: !1686)
!1695 = !DILocation(line: 12, column: 33, scope: !1686)
!1696 = !DILocation(line: 12, column: 30, scope: !1686)
!1697 = !DILocation(line: 0, scope: !1686)
!1698 = !DILocation(line: 12, column: 3, scope: !1687)
!1699 = !DILocation(line: 13, column: 8, scope: !1686)
!1700 = !DILocation(line: 13, column: 5, scope: !1686)
!1701 = !DILocation(line: 12, column: 49, scope: !1686)
!1702 = !DILocation(line: 12, column: 3, scope: !1686)
!1703 = distinct !{!1703, !1698, !1704, !369}
!1704 = !DILocation(line: 13, column: 8, scope: !1687)
!1705 = !DILocation(line: 14, column: 17, scope: !1679)
!1706 = !DILocation(line: 14, column: 16, scope: !1679)
!1707 = !DILocation(line: 14, column: 10, scope: !1679)
!1708 = !DILocation(line: 14, column: 31, scope: !1679)
!1709 = !DILocation(line: 14, column: 30, scope: !1679)
!1710 = !DILocation(line: 14, column: 24, scope: !1679)
!1711 = !DILocation(line: 14, column: 22, scope: !1679)
!1712 = !DILocation(line: 14, column: 3, scope: !1679)
!1713 = distinct !DISubprogram(name: "small", scope: !141, file: !141, line: 6, type: !552, scopeLine: 6, flags: DIFlagPrototyped, spFlags: DISPFlagLocalToUnit | DISPFlagDefinition, unit: !140, retainedNodes: !137)
!1714 = !DILocalVariable(name: "letter", arg: 1, scope: !1713, file: !141, line: 6, type: !4)
!1715 = !DILocation(line: 6, column: 23, scope: !1713)
!1716 = !DILocalVariable(name: "c", scope: !1713, file: !141, line: 7, type: !50)
!1717 = !DILocation(line: 7, column: 17, scope: !1713)
!1718 = !DILocation(line: 7, column: 21, scope: !1713)
!1719 = !DILocation(line: 8, column: 10, scope: !1713)
!1720 = !DILocation(line: 8, column: 12, scope: !1713)
!1721 = !DILocation(line: 8, column: 19, scope: !1713)
!1722 = !DILocation(line: 8, column: 22, scope: !1713)
!1723 = !DILocation(line: 8, column: 24, scope: !1713)
!1724 = !DILocation(line: 8, column: 33, scope: !1713)
!1725 = !DILocation(line: 8, column: 35, scope: !1713)
!1726 = !DILocation(line: 8, column: 51, scope: !1713)
!1727 = !DILocation(line: 8, column: 3, scope: !1713)
!1728 = distinct !DISubprogram(name: "strncasecmp", scope: !141, file: !141, line: 17, type: !1172, scopeLine: 17, flags: DIFlagPrototyped, spFlags: DISPFlagDefinition, unit: !140, retainedNodes: !137)
!1729 = !DILocalVariable(name: "one", arg: 1, scope: !1728, file: !141, line: 17, type: !132)
!1730 = !DILocation(line: 17, column: 34, scope: !1728)
!1731 = !DILocalVariable(name: "two", arg: 2, scope: !1728, file: !141, line: 17, type: !132)
!1732 = !DILocation(line: 17, column: 51, scope: !1728)
!1733 = !DILocalVariable(name: "most", arg: 3, scope: !1728, file: !141, line: 17, type: !106)
!1734 = !DILocation(line: 17, column: 63, scope: !1728)
!1735 = !DILocation(line: 18, column: 3, scope: !1728)
!1736 = !DILocation(line: 18, column: 10, scope: !1737)
!1737 = distinct !DILexicalBlock(scope: !1738, file: !141, line: 18, column: 3)
!1738 = distinct !DILexicalBlock(scope: !1728, file: !141, line: 18, column: 3)
!1739 = !DILocation(line: 18, column: 15, scope: !1737)
!1740 = !DILocation(line: 18, column: 3, scope: !1738)
!1741 = !DILocation(line: 19, column: 11, scope: !1742)
!1742 = distinct !DILexicalBlock(scope: !1737, file: !141, line: 19, column: 9)
!1743 = !DILocation(line: 19, column: 10, scope: !1742)
!1744 = !DILocation(line: 19, column: 15, scope: !1742)
!1745 = !DILocation(line: 19, column: 25, scope: !1742)
!1746 = !DILocation(line: 19, column: 24, scope: !1742)
!1747 = !DILocation(line: 19, column: 18, scope: !1742)
!1748 = !DILocation(line: 19, column: 40, scope: !1742)
!1749 = !DILocation(line: 19, column: 39, scope: !1742)
!1750 = !DILocation(line: 19, column: 33, scope: !1742)
!1751 = !DILocation(line: 19, column: 30, scope: !1742)
!1752 = !DILocation(line: 19, column: 9, scope: !1737)
!1753 = !DILocation(line: 20, column: 21, scope: !1742)
!1754 = !DILocation(line: 20, column: 20, scope: !1742)
!1755 = !DILocation(line: 20, column: 14, scope: !1742)
!1756 = !DILocation(line: 20, column: 35, scope: !1742)
!1757 = !DILocation(line: 20, column: 34, scope: !1742)
!1758 = !DILocation(line: 20, column: 28, scope: !1742)
!1759 = !DILocation(line: 20, column: 26, scope: !1742)
!1760 = !DILocation(line: 20, column: 7, scope: !1742)
!1761 = !DILocation(line: 19, column: 43, scope: !1742)
!1762 = !DILocation(line: 18, column: 24, scope: !1737)
!1763 = !DILocation(line: 18, column: 31, scope: !1737)
!1764 = !DILocation(line: 18, column: 38, scope: !1737)
!1765 = !DILocation(line: 18, column: 3, scope: !1737)
!1766 = distinct !{!1766, !1740, !1767, !369}
!1767 = !DILocation(line: 20, column: 38, scope: !1738)
!1768 = !DILocation(line: 21, column: 3, scope: !1728)
!1769 = !DILocation(line: 22, column: 1, scope: !1728)
